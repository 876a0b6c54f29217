/*
 * Reads an untrusted table without the whole check: it opens the bytes and walks, a few pairs at a time. It does not
 * use the header's item count, which is forged here. So it finds all pairs, and reads and writes nothing outside of the
 * arrays. If a program does use the count, to allocate for all pairs at once, it must compare it with the length of the
 * bytes first.
 */
#include <inttypes.h>
#include <stdint.h>
#include <stdio.h>
#include <stdlib.h>
#include <string.h>

#include "odht.h"
#include "expect.h"

enum { LENGTH = 256, PAIRS = 13, KEY_SUM = 91, PLACES = 4, REFUSED = 1000 };

static uint64_t sum_of(const uint64_t *keys, size_t count)
{
    uint64_t sum = 0;
    for (size_t index = 0; index < count; index++)
        sum += keys[index];
    return sum;
}

/* Adds up the keys of all pairs. */
static uint32_t add_up_keys(const uint8_t *bytes, size_t length, uint64_t *sum)
{
    uint64_t keys[PLACES];
    uint32_t values[PLACES];
    size_t cursor = 0;
    size_t count = 0;
    uint32_t status = odht_u64_u32_open(bytes, length);

    if (status != ODHT_OK)
        return status;
    do {
        status = odht_u64_u32_walk(bytes, length, &cursor, keys, PLACES, values, PLACES, &count);
        if (status == ODHT_OK || status == ODHT_TOO_SMALL)
            *sum += sum_of(keys, count);
    } while (status == ODHT_TOO_SMALL);
    return status;
}

/*
 * Does the same with one call of walk, for all pairs. A slot takes more than one byte, so a header is forged if its
 * count is above the length of the bytes. For smaller counts the products below are far below 2^64.
 */
static uint32_t add_up_keys_at_once(const uint8_t *bytes, size_t length, uint64_t *sum)
{
    size_t cursor = 0;
    size_t count = 0;
    uint32_t status = odht_u64_u32_len(bytes, length, &count);
    if (status != ODHT_OK)
        return status;
    if (count > length)
        return REFUSED;

    uint64_t *keys = (uint64_t *)calloc(count + 1, sizeof *keys);
    uint32_t *values = (uint32_t *)calloc(count + 1, sizeof *values);
    status = ODHT_MEMORY;
    if (keys != NULL && values != NULL) {
        status = odht_u64_u32_walk(bytes, length, &cursor, keys, count, values, count, &count);
        *sum = sum_of(keys, count);
    }
    free(keys);
    free(values);
    return status;
}

/* Bytes 8 to 15 of the header are the item count, in little-endian order. */
static void state(uint8_t *bytes, uint64_t count)
{
    for (size_t index = 0; index < 8; index++)
        bytes[8 + index] = (uint8_t)(count >> (8 * index));
}

/* Keys 1 to 13 with the value 1. At 87 percent, 13 items are the maximum of 16 slots. */
static uint8_t *made(void)
{
    uint64_t keys[PAIRS];
    uint32_t values[PAIRS];
    uint8_t *bytes = (uint8_t *)malloc(LENGTH);

    if (bytes == NULL)
        exit(EXIT_FAILURE);
    for (size_t index = 0; index < PAIRS; index++) {
        keys[index] = index + 1;
        values[index] = 1;
    }
    EXPECT(odht_u64_u32_build(keys, PAIRS, values, PAIRS, 87, bytes, LENGTH, NULL), ODHT_OK);
    return bytes;
}

int main(void)
{
    static const struct { uint64_t stated; uint32_t status; uint64_t sum; } cases[] = {
        {PAIRS, ODHT_OK, KEY_SUM},
        {PAIRS + 1, ODHT_OK, KEY_SUM},
        {LENGTH, ODHT_OK, KEY_SUM},
        {0, ODHT_TOO_SMALL, 0},
        {LENGTH + 1, REFUSED, 0},
        {UINT64_C(1) << 32, REFUSED, 0},
        {UINT64_C(1) << 62, REFUSED, 0},         /* times 8 and times 4 is 0 in 64 bits */
        {(UINT64_C(1) << 62) + 1, REFUSED, 0},   /* times 8 is 8, and times 4 is 4 */
        {UINT64_MAX, REFUSED, 0},
    };
    uint8_t *bytes = made();

    for (size_t index = 0; index < sizeof cases / sizeof cases[0]; index++) {
        uint64_t sum = 0;
        uint32_t checked = cases[index].stated == PAIRS ? ODHT_OK : ODHT_WRONG_ITEM_COUNT;

        state(bytes, cases[index].stated);
        EXPECT(odht_u64_u32_check(bytes, LENGTH), checked);
        EXPECT(add_up_keys(bytes, LENGTH, &sum), ODHT_OK);
        EXPECT(sum, KEY_SUM);
        sum = 0;
        EXPECT(add_up_keys_at_once(bytes, LENGTH, &sum), cases[index].status);
        EXPECT(sum, cases[index].sum);
    }
    free(bytes);
    printf("%u answers are as they must be\n", compared);
    return EXIT_SUCCESS;
}
