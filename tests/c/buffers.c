/* Buffers between two guard pages, which fault on any access. */
#include "buffers.h"

#include <stdbool.h>
#include <stdio.h>
#include <string.h>
#include <sys/mman.h>

#include "test.h"

/* PAGE is that of x86-64. MARGIN is what stands in the pages of a buffer before and behind it. */
enum { PAGE = 4096, MARGIN = 0xc5, MOST = 1024, MOST_SPARE = 64 };

struct buffer {
    uint8_t *pages;
    size_t pages_len;
    uint8_t *bytes;
    size_t len;
    bool is_frozen;
};

static struct buffer buffers[MOST];
static size_t count;

/* Single pages of buffers that were dropped: taking them again is faster than new ones. */
static uint8_t *spare[MOST_SPARE];
static size_t spare_count;

static enum placement placed;
static size_t made;

void place_buffers(enum placement wanted)
{
    placed = wanted;
    made = 0;
}

enum placement placement(void)
{
    return placed;
}

const char *placement_name(enum placement of)
{
    switch (of) {
    case BEFORE_GUARD: return "right before a page that faults";
    case BEHIND_GUARD: return "right behind a page that faults";
    default: return "at odd addresses";
    }
}

/* How far behind the first page the buffer begins. Odd offsets go from 1 to 15 in turn. */
static size_t offset_of(size_t len, size_t pages_len, size_t alignment)
{
    switch (placed) {
    case BEFORE_GUARD: return pages_len - len;
    case BEHIND_GUARD: return 0;
    default: return alignment == 1 ? 2 * (made++ % 8) + 1 : alignment;
    }
}

/* Reserves pages with one more on either side. */
static uint8_t *guarded_pages(size_t len)
{
    int flags = MAP_PRIVATE | MAP_ANONYMOUS;
    uint8_t *all;

    if (len == PAGE && spare_count > 0)
        return spare[--spare_count];
    all = mmap(NULL, len + 2 * PAGE, PROT_NONE, flags, -1, 0);

    if (all == MAP_FAILED || mprotect(all + PAGE, len, PROT_READ | PROT_WRITE) != 0)
        fail(HERE("guarded_pages"), "no memory for a buffer");
    return all + PAGE;
}

static uint8_t *new_buffer(size_t len, size_t alignment)
{
    struct buffer *buffer = &buffers[count];
    size_t pages_len = (len + 16 + PAGE - 1) / PAGE * PAGE;

    if (count == MOST)
        fail(HERE("new_buffer"), "too many buffers");
    buffer->pages = guarded_pages(pages_len);
    buffer->pages_len = pages_len;
    buffer->bytes = buffer->pages + offset_of(len, pages_len, alignment);
    buffer->len = len;
    buffer->is_frozen = false;
    count++;
    memset(buffer->pages, MARGIN, pages_len);
    memset(buffer->bytes, FILL, len);
    return buffer->bytes;
}

uint8_t *bytes_of(size_t len)
{
    return new_buffer(len, 1);
}

void *numbers_of(size_t len)
{
    return new_buffer(len, 8);
}

uint8_t *copy_of(const void *bytes, size_t len)
{
    return memcpy(bytes_of(len), bytes, len);
}

void *copy_of_numbers(const void *numbers, size_t len)
{
    return memcpy(numbers_of(len), numbers, len);
}

odht_view *view_of_nothing(void)
{
    static const odht_view nothing = ODHT_NO_VIEW;

    return copy_of_numbers(&nothing, sizeof nothing);
}

size_t buffer_count(void)
{
    return count;
}

static void check_margin(const struct buffer *buffer)
{
    size_t before = (size_t)(buffer->bytes - buffer->pages);
    const uint8_t *end = buffer->bytes + buffer->len;

    check_each_byte(HERE("bytes before a buffer"), buffer->pages, before, MARGIN);
    check_each_byte(HERE("bytes behind a buffer"), end, buffer->pages_len - before - buffer->len,
                    MARGIN);
}

void check_margins(void)
{
    for (size_t index = 0; index < count; index++)
        check_margin(&buffers[index]);
}

static void drop_last_buffer(void)
{
    struct buffer *buffer = &buffers[--count];

    if (buffer->pages_len == PAGE && !buffer->is_frozen && spare_count < MOST_SPARE)
        spare[spare_count++] = buffer->pages;
    else
        munmap(buffer->pages - PAGE, buffer->pages_len + 2 * PAGE);
}

void drop_buffers_since(size_t kept)
{
    while (count > kept) {
        check_margin(&buffers[count - 1]);
        drop_last_buffer();
    }
}

void drop_buffers(void)
{
    while (count > 0)
        drop_last_buffer();
}

/* The buffer whose pages, or those around them, have this address. */
static struct buffer *buffer_at(const void *address)
{
    const uint8_t *byte = address;

    for (size_t index = count; index-- > 0;) {
        struct buffer *buffer = &buffers[index];
        if (byte >= buffer->pages - PAGE && byte < buffer->pages + buffer->pages_len + PAGE)
            return buffer;
    }
    return NULL;
}

void freeze(const void *bytes)
{
    struct buffer *buffer = buffer_at(bytes);

    if (buffer == NULL || mprotect(buffer->pages, buffer->pages_len, PROT_READ) != 0)
        fail(HERE("freeze"), "no such buffer");
    buffer->is_frozen = true;
}

void describe_address(const void *address, char *text, size_t len)
{
    const uint8_t *byte = address;
    const struct buffer *buffer = buffer_at(address);

    if (buffer == NULL)
        snprintf(text, len, "at %p, which is beside no buffer", address);
    else
        snprintf(text, len, "at offset %td of a buffer of %zu bytes", byte - buffer->bytes,
                 buffer->len);
}
