/*
 * A dynamic table, for lengths that no shape has: the keys are part numbers of twelve bytes, and the values are places
 * of five bytes. A table takes 32 bytes for the header, 17 + 1 bytes for the entry and the control byte of each slot,
 * and 16 bytes that repeat the first control bytes.
 */
#include <stdint.h>
#include <stdio.h>
#include <stdlib.h>
#include <string.h>

#include "odht.h"
#include "expect.h"

enum { KEY = 12, VALUE = 5, PARTS = 20, LENGTH = 32 + 32 * (KEY + VALUE) + 48 };
enum { GROWN = 32 + 64 * (KEY + VALUE) + 80, ROOM = 8 };

static const odht_layout layout = {KEY, VALUE, ODHT_HASH_XXH64};

/* Writes the key and the value of a part. Both end in its number, in two digits. */
static void write_part(unsigned part, uint8_t *key, uint8_t *value)
{
    memcpy(key, "part-number-", KEY);
    memcpy(value, "rack-", VALUE);
    key[KEY - 2] = value[VALUE - 2] = (uint8_t)('0' + part / 10);
    key[KEY - 1] = value[VALUE - 1] = (uint8_t)('0' + part % 10);
}

/* Inserts the parts one by one. */
static void fills(uint8_t *bytes)
{
    uint8_t key[KEY];
    uint8_t value[VALUE];
    uint8_t former[VALUE];
    size_t length = 0;

    EXPECT(odht_any_bytes_needed(&layout, PARTS, 87, &length), ODHT_OK);
    EXPECT(length, LENGTH);
    EXPECT(odht_any_init(&layout, bytes, LENGTH, PARTS, 87), ODHT_OK);
    for (unsigned part = 0; part < PARTS; part++) {
        write_part(part, key, value);
        EXPECT(odht_any_insert(&layout, bytes, LENGTH, key, KEY, value, VALUE, NULL, 0), ODHT_OK);
    }
    write_part(7, key, value);
    EXPECT(odht_any_insert(&layout, bytes, LENGTH, key, KEY, (const uint8_t *)"sold!", VALUE, former,
               VALUE),
        ODHT_REPLACED);
    EXPECT(memcmp(former, value, VALUE), 0);
    EXPECT(odht_any_check(&layout, bytes, LENGTH), ODHT_OK);
}

/* Looks up a key, and passes keys and buffers of wrong lengths. */
static void looks_up(const uint8_t *bytes)
{
    uint8_t key[KEY];
    uint8_t value[VALUE];
    uint8_t expected[VALUE];

    write_part(19, key, expected);
    EXPECT(odht_any_get(&layout, bytes, LENGTH, key, KEY, value, VALUE), ODHT_OK);
    EXPECT(memcmp(value, expected, VALUE), 0);
    EXPECT(odht_any_get(&layout, bytes, LENGTH, key, KEY - 1, value, VALUE), ODHT_BAD_LENGTHS);
    EXPECT(odht_any_get(&layout, bytes, LENGTH, key, KEY, value, VALUE - 1), ODHT_BAD_LENGTHS);
    write_part(20, key, expected);
    EXPECT(odht_any_contains(&layout, bytes, LENGTH, key, KEY), ODHT_ABSENT);
}

/* Opens the bytes once for many lookups. */
static void looks_up_often(const uint8_t *bytes)
{
    odht_view view = ODHT_NO_VIEW;
    uint8_t key[KEY];
    uint8_t value[VALUE];
    uint8_t expected[VALUE];

    EXPECT(odht_any_open_view(&layout, bytes, LENGTH, &view), ODHT_OK);
    EXPECT(odht_any_view_len(&view), PARTS);
    for (unsigned part = 0; part < PARTS; part++) {
        write_part(part, key, expected);
        EXPECT(odht_any_view_get(&layout, &view, key, KEY, value, VALUE), ODHT_OK);
        EXPECT(memcmp(value, part == 7 ? (const uint8_t *)"sold!" : expected, VALUE), 0);
    }
    write_part(PARTS, key, expected);
    EXPECT(odht_any_view_contains(&layout, &view, key, KEY), ODHT_ABSENT);
}

/* Reads the lengths from the bytes of a table. These do not store the hash function. */
static void reads_the_lengths(const uint8_t *bytes)
{
    odht_layout stated = {0, 0, ODHT_HASH_XXH64};
    odht_layout none = {3, VALUE, ODHT_HASH_UN};

    EXPECT(odht_any_layout_of(bytes, LENGTH, &stated), ODHT_OK);
    EXPECT(stated.key_len, KEY);
    EXPECT(stated.value_len, VALUE);
    EXPECT(odht_any_open(&stated, bytes, LENGTH), ODHT_OK);
    EXPECT(odht_any_open(&none, bytes, LENGTH), ODHT_BAD_LAYOUT);
}

/* Walks over the table in batches. Each part comes once. */
static void walks(const uint8_t *bytes)
{
    uint8_t keys[ROOM * KEY];
    uint8_t values[ROOM * VALUE];
    unsigned seen = 0;
    size_t cursor = 0;
    size_t count = 0;
    uint32_t status;

    do {
        status = odht_any_walk(&layout, bytes, LENGTH, &cursor, ROOM, keys, sizeof keys, values,
            sizeof values, &count);
        for (size_t at = 0; at < count; at++)
            seen += (unsigned)(keys[at * KEY + KEY - 2] - '0') * 10 + keys[at * KEY + KEY - 1] - '0';
    } while (status == ODHT_TOO_SMALL);
    EXPECT(status, ODHT_OK);
    EXPECT(seen, PARTS * (PARTS - 1) / 2);
}

/* Grows the table into larger bytes, and then inserts and looks up many parts at once. */
static void grows(const uint8_t *bytes, uint8_t *grown)
{
    uint8_t keys[2 * KEY];
    uint8_t values[2 * VALUE];
    uint8_t found[2];
    size_t length = 0;
    size_t accepted = 0;

    EXPECT(odht_any_grow(&layout, bytes, LENGTH, grown, GROWN, &length), ODHT_OK);
    EXPECT(length, GROWN);
    write_part(30, keys, values);
    write_part(31, keys + KEY, values + VALUE);
    EXPECT(odht_any_insert_all(&layout, grown, GROWN, 2, keys, sizeof keys, values, sizeof values,
               &accepted),
        ODHT_OK);
    EXPECT(accepted, 2);
    write_part(40, keys, values);
    EXPECT(odht_any_get_all(&layout, grown, GROWN, 2, keys, sizeof keys, values, sizeof values, found,
               sizeof found),
        ODHT_OK);
    EXPECT(found[0] * 10 + found[1], 1);
    EXPECT(odht_any_check(&layout, grown, GROWN), ODHT_OK);
}

int main(void)
{
    uint8_t bytes[LENGTH];
    uint8_t grown[GROWN];

    fills(bytes);
    looks_up(bytes);
    looks_up_often(bytes);
    reads_the_lengths(bytes);
    walks(bytes);
    grows(bytes, grown);
    printf("%u answers are as they must be\n", compared);
    return EXIT_SUCCESS;
}
