/*
 * What a peer does: it has a table from numbers of 64 bits to numbers of 32 bits in a file. A peer NAME has the functions
 * NAME_build and so on.
 */
#ifndef PEER_H
#define PEER_H

#include <stddef.h>
#include <stdint.h>

/* Stores the pairs, whose keys differ, in a new file. 0 is success. */
#define PEER_BUILD(NAME) \
    int NAME##_build(const char *path, const uint64_t *keys, const uint32_t *values, size_t count)

/* The opened file, or NULL. */
#define PEER_OPEN(NAME) void *NAME##_open(const char *path)

/* One lookup for each key: how many are there. The sum of their values is added to `sum`. */
#define PEER_GET(NAME) \
    size_t NAME##_get(void *opened, const uint64_t *keys, size_t count, uint64_t *sum)

#define PEER_CLOSE(NAME) void NAME##_close(void *opened)

#define PEER(NAME) \
    PEER_BUILD(NAME); \
    PEER_OPEN(NAME); \
    PEER_GET(NAME); \
    PEER_CLOSE(NAME)

#endif
