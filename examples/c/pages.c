/*
 * A large table in pages of 2 MB. Its memory begins at a multiple of 2 MB. The program requests such
 * pages before the first write (docs/USING.md, "Large tables"). If the system has none, it uses pages
 * of the usual size, and the table is the same. The program exits with 0 if it finds each key.
 */
#ifndef _GNU_SOURCE
#define _GNU_SOURCE
#endif

#include <stdint.h>
#include <stdlib.h>
#include <sys/mman.h>

#include "odht.h"

#define ITEMS ((size_t)200000)
#define PAGE ((size_t)2 << 20)

/* Allocates `length` bytes, which the caller frees with `free`. Returns NULL if allocation fails. */
static uint8_t *allocate_in_large_pages(size_t length)
{
    size_t whole = (length + PAGE - 1) / PAGE * PAGE;
    void *memory = NULL;
    if (whole < length || posix_memalign(&memory, PAGE, whole) != 0)
        return NULL;
#ifdef MADV_HUGEPAGE
    /* this is only advice: it never changes the bytes */
    (void)madvise(memory, whole, MADV_HUGEPAGE);
#endif
    return (uint8_t *)memory;
}

static int build_and_look_up(uint64_t *keys, uint32_t *values, uint8_t *found)
{
    size_t length = 0;
    size_t there = 0;
    for (size_t index = 0; index < ITEMS; index++) {
        keys[index] = 3 * index;
        values[index] = (uint32_t)index;
    }
    if (odht_u64_u32_bytes_needed(ITEMS, 87, &length) != ODHT_OK)
        return 1;
    uint8_t *bytes = allocate_in_large_pages(length);
    if (bytes == NULL)
        return 1;
    int failed = odht_u64_u32_build(keys, ITEMS, values, ITEMS, 87, bytes, length, &length) != ODHT_OK
        || odht_u64_u32_get_all(bytes, length, keys, ITEMS, values, ITEMS, found, ITEMS) != ODHT_OK;
    for (size_t index = 0; index < ITEMS; index++)
        there += found[index] == 1 && values[index] == index;
    free(bytes);
    return failed || there != ITEMS;
}

int main(void)
{
    uint64_t *keys = (uint64_t *)calloc(ITEMS, sizeof *keys);
    uint32_t *values = (uint32_t *)calloc(ITEMS, sizeof *values);
    uint8_t *found = (uint8_t *)calloc(ITEMS, 1);
    int failed = keys == NULL || values == NULL || found == NULL || build_and_look_up(keys, values, found);
    free(keys);
    free(values);
    free(found);
    return failed;
}
