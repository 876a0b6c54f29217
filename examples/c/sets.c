/* Sets of hashes: lookups, a walk over two keys at a time, a growth, and builds. */
#include <stdint.h>
#include <stdio.h>
#include <stdlib.h>
#include <string.h>

#include "odht.h"
#include "expect.h"

enum { HASH = 16, LENGTH = 32 + 16 * HASH + 32, GROWN = 32 + 32 * HASH + 48 };

/* Three hashes whose last four bytes differ, without gaps between them, and one that is in no set. */
static const uint8_t hashes[] = "a hash that ends0another hash end1the third of thm2";
static const uint8_t other[] = "this one is not3";

static void fills(uint8_t *bytes)
{
    size_t accepted = 0;
    uint8_t found[3] = {7, 7, 7};

    EXPECT(odht_b16_bytes_needed(13, 87, NULL), ODHT_OK);
    EXPECT(odht_b16_init(bytes, LENGTH, 13, 87), ODHT_OK);
    EXPECT(odht_b16_contains(bytes, LENGTH, hashes), ODHT_ABSENT);
    EXPECT(odht_b16_insert(bytes, LENGTH, hashes), ODHT_OK);
    EXPECT(odht_b16_insert(bytes, LENGTH, hashes), ODHT_REPLACED);
    EXPECT(odht_b16_contains(bytes, LENGTH, hashes), ODHT_OK);
    EXPECT(odht_b16_contains_all(bytes, LENGTH, hashes, 3, found, 3), ODHT_OK);
    EXPECT(found[0] * 100 + found[1] * 10 + found[2], 100);
    EXPECT(odht_b16_contains_all(bytes, LENGTH, hashes, 3, found, 2), ODHT_BAD_LENGTHS);
    EXPECT(odht_b16_insert_all(bytes, LENGTH, hashes, 3, &accepted), ODHT_OK);
    EXPECT(accepted, 3);
    EXPECT(odht_b16_check(bytes, LENGTH), ODHT_OK);
}

/* A walk over two keys at a time gives each hash once. */
static void walks(const uint8_t *bytes)
{
    uint8_t keys[2 * HASH];
    unsigned seen[3] = {0, 0, 0};
    size_t cursor = 0;
    size_t count = 0;
    uint32_t status;

    do {
        status = odht_b16_walk(bytes, LENGTH, &cursor, keys, 2, &count);
        for (size_t key = 0; key < count; key++)
            for (size_t hash = 0; hash < 3; hash++)
                seen[hash] += memcmp(keys + key * HASH, hashes + hash * HASH, HASH) == 0;
    } while (status == ODHT_TOO_SMALL);
    EXPECT(status, ODHT_OK);
    EXPECT(seen[0] * 100 + seen[1] * 10 + seen[2], 111);
}

static void grows(const uint8_t *bytes)
{
    uint8_t grown[GROWN];
    odht_view view = ODHT_NO_VIEW;
    size_t length = 0;

    EXPECT(odht_b16_grow(bytes, LENGTH, NULL, 0, &length), ODHT_TOO_SMALL);
    EXPECT(length, LENGTH);
    EXPECT(odht_b16_grow(bytes, LENGTH, grown, sizeof grown, &length), ODHT_OK);
    EXPECT(odht_b16_check(grown, length), ODHT_OK);
    EXPECT(odht_b16_open_view(grown, length, &view), ODHT_OK);
    EXPECT(odht_b16_view_contains(&view, hashes + 2 * HASH), ODHT_OK);
    EXPECT(odht_b16_view_contains(&view, other), ODHT_ABSENT);
    EXPECT(odht_b16_view_len(&view), 3);
}

static void builds(void)
{
    uint8_t out[LENGTH];
    uint8_t found[3] = {7, 7, 7};
    odht_view view = ODHT_NO_VIEW;
    size_t length = 0;

    EXPECT(odht_b16_build(hashes, 3, 87, NULL, 0, &length), ODHT_TOO_SMALL);
    EXPECT(length, LENGTH);
    EXPECT(odht_b16_build(hashes, 3, 87, out, sizeof out, &length), ODHT_OK);
    EXPECT(odht_b16_open_view(out, length, &view), ODHT_OK);
    EXPECT(odht_b16_view_contains_all(&view, hashes, 3, found, 3), ODHT_OK);
    EXPECT(found[0] * 100 + found[1] * 10 + found[2], 111);
    EXPECT(odht_b16_build_growing(hashes, 3, out, sizeof out, NULL), ODHT_OK);
    EXPECT(odht_b16_check(out, length), ODHT_OK);
}

int main(void)
{
    uint8_t bytes[LENGTH];

    fills(bytes);
    walks(bytes);
    grows(bytes);
    builds();
    printf("%u answers are as they must be\n", compared);
    return EXIT_SUCCESS;
}
