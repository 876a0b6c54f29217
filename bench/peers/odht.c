/* This library, from C: a file is mapped and opened once. One call for each key, and one call for all keys. */
#define _POSIX_C_SOURCE 200809L

#include <fcntl.h>
#include <stdio.h>
#include <stdlib.h>
#include <sys/mman.h>
#include <sys/stat.h>
#include <unistd.h>

#include "odht.h"
#include "peer.h"

enum { PERCENT = 87 };

PEER(odht_each);
PEER(odht_all);

static int write_file(const char *path, const uint8_t *bytes, size_t length)
{
    FILE *file = fopen(path, "wb");
    if (file == NULL)
        return 1;
    size_t written = fwrite(bytes, 1, length, file);
    return fclose(file) != 0 || written != length;
}

PEER_BUILD(odht_each)
{
    size_t length = 0;
    if (odht_u64_u32_bytes_needed(count, PERCENT, &length) != ODHT_OK)
        return 1;
    uint8_t *bytes = malloc(length);
    if (bytes == NULL)
        return 1;
    int failed = odht_u64_u32_build(keys, count, values, count, PERCENT, bytes, length, &length) != ODHT_OK
        || write_file(path, bytes, length);
    free(bytes);
    return failed;
}

static void *map(const char *path, size_t *length)
{
    struct stat about;
    int file = open(path, O_RDONLY);
    if (file < 0)
        return MAP_FAILED;
    void *bytes = MAP_FAILED;
    if (fstat(file, &about) == 0) {
        *length = (size_t)about.st_size;
        bytes = mmap(NULL, *length, PROT_READ, MAP_SHARED, file, 0);
    }
    close(file);
    return bytes;
}

PEER_OPEN(odht_each)
{
    size_t length = 0;
    void *bytes = map(path, &length);
    odht_view *view = malloc(sizeof *view);
    if (bytes == MAP_FAILED || view == NULL || odht_u64_u32_open_view(bytes, length, view) != ODHT_OK)
        return NULL;
    return view;
}

PEER_GET(odht_each)
{
    size_t there = 0;
    for (size_t index = 0; index < count; index++) {
        uint32_t value = 0;
        there += odht_u64_u32_view_get(opened, keys[index], &value) == ODHT_OK;
        *sum += value;
    }
    return there;
}

PEER_CLOSE(odht_each)
{
    odht_view *view = opened;
    munmap((void *)view->bytes, view->len);
    free(view);
}

PEER_BUILD(odht_all)
{
    return odht_each_build(path, keys, values, count);
}

PEER_OPEN(odht_all)
{
    return odht_each_open(path);
}

/* As many keys as arrays on the stack take answers for. */
enum { TOGETHER = 1024 };

PEER_GET(odht_all)
{
    size_t there = 0;
    for (size_t from = 0; from < count; from += TOGETHER) {
        uint32_t values[TOGETHER];
        uint8_t found[TOGETHER];
        size_t many = count - from < TOGETHER ? count - from : TOGETHER;
        if (odht_u64_u32_view_get_all(opened, keys + from, many, values, many, found, many) != ODHT_OK)
            return 0;
        for (size_t index = 0; index < many; index++) {
            there += found[index];
            *sum += found[index] ? values[index] : 0;
        }
    }
    return there;
}

PEER_CLOSE(odht_all)
{
    odht_each_close(opened);
}
