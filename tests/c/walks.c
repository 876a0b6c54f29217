/*
 * Walks into arrays, in batches. Keys of 16 bytes are already hashes, so a key whose bytes are all `n` is in slot `n`
 * of sixteen.
 */
#include <stdint.h>
#include <string.h>

#include "buffers.h"
#include "odht.h"
#include "subjects.h"

/* Where the item count is in the header. */
enum { ITEM_COUNT_AT = 8, LEN = 384 };

/* Asserts that these arrays are the keys of these numbers, and ten times the numbers. */
static void check_pairs(const uint8_t *keys, const uint32_t *values, uint8_t first, uint8_t second)
{
    ALL_BYTES(keys, 16, first);
    ALL_BYTES(keys + 16, 16, second);
    EQUAL(values[0], 10 * first);
    EQUAL(values[1], 10 * second);
}

/* A table of 16 slots with pairs at slots 5, 9 and 12. */
static uint8_t *three_pairs(void)
{
    uint8_t *bytes = bytes_of(LEN);
    uint8_t *keys = bytes_of(48);
    size_t *accepted = SIZES(0);

    memset(keys, 12, 16);
    memset(keys + 16, 5, 16);
    memset(keys + 32, 9, 16);
    STATUS(odht_b16_u32_init(bytes, LEN, 13, 87), ODHT_OK);
    STATUS(odht_b16_u32_insert_all(bytes, LEN, keys, 3, U32S(120, 50, 90), 3, accepted), ODHT_OK);
    EQUAL(*accepted, 3);
    return bytes;
}

/* Two of three pairs, then the last, then none. What is behind the pairs is unchanged. */
static void walk_in_two_parts(const uint8_t *bytes)
{
    uint8_t *keys = bytes_of(32);
    uint32_t *values = U32S(7, 7);
    size_t *cursor = SIZES(0);
    size_t *count = SIZES(99);

    STATUS(odht_b16_u32_walk(bytes, LEN, cursor, keys, 2, values, 2, count), ODHT_TOO_SMALL);
    EQUAL(*count, 2);
    EQUAL(*cursor, 12);
    check_pairs(keys, values, 5, 9);
    STATUS(odht_b16_u32_walk(bytes, LEN, cursor, keys, 2, values, 2, count), ODHT_OK);
    EQUAL(*count, 1);
    EQUAL(*cursor, 16);
    check_pairs(keys, values, 12, 9);
    STATUS(odht_b16_u32_walk(bytes, LEN, cursor, keys, 2, values, 2, count), ODHT_OK);
    EQUAL(*count, 0);
    EQUAL(*cursor, 16);
    check_pairs(keys, values, 12, 9);
}

static void three_pairs_in_two_parts(void)
{
    const uint8_t *bytes = three_pairs();

    freeze(bytes);
    walk_in_two_parts(bytes);
}

/* Whatever the header says: fewer items, more, and more than any table has. */
static void forged_count_is_not_believed(void)
{
    uint8_t *bytes = three_pairs();

    bytes[ITEM_COUNT_AT] = 0;
    walk_in_two_parts(bytes);
    bytes[ITEM_COUNT_AT] = 200;
    walk_in_two_parts(bytes);
    memset(bytes + ITEM_COUNT_AT, 255, 8);
    walk_in_two_parts(bytes);
}

static void refused_walks_leave_the_cursor(void)
{
    uint8_t *bytes = three_pairs();
    uint8_t *keys = bytes_of(32);
    uint32_t *values = U32S(7, 7, 7);
    size_t *cursor = SIZES(6);
    size_t *count = SIZES(99);

    STATUS(odht_b16_u32_walk(bytes, LEN, cursor, keys, 2, values, 3, count), ODHT_BAD_LENGTHS);
    bytes[27] = 3;
    STATUS(odht_b16_u32_walk(bytes, LEN, cursor, keys, 2, values, 2, count), ODHT_WRONG_VERSION);
    EQUAL(*cursor, 6);
    EQUAL(*count, 99);
    ALL_BYTES(keys, 32, FILL);
    for (size_t index = 0; index < 3; index++)
        EQUAL(values[index], 7);
}

/* A cursor in the middle, at the last pair, behind it, and far behind the slots. */
static void a_walk_begins_where_the_cursor_is(void)
{
    static const struct { size_t cursor; size_t count; } rows[] = {
        { 0, 3 }, { 5, 3 }, { 6, 2 }, { 9, 2 }, { 10, 1 }, { 12, 1 }, { 13, 0 }, { 16, 0 },
        { 17, 0 }, { SIZE_MAX, 0 },
    };
    const uint8_t *bytes = three_pairs();

    for (size_t row = 0; row < sizeof rows / sizeof rows[0]; row++) {
        uint8_t *keys = bytes_of(48);
        uint32_t *values = U32S(7, 7, 7);
        size_t *cursor = SIZES(rows[row].cursor);
        size_t *count = SIZES(99);

        in_case("row", row);
        STATUS(odht_b16_u32_walk(bytes, LEN, cursor, keys, 3, values, 3, count), ODHT_OK);
        EQUAL(*count, rows[row].count);
        EQUAL(*cursor, 16);
    }
}

/* The keys 1 and 3 have the slots 5 and 15. */
static void pairs_in_slot_order(void)
{
    uint8_t *bytes = bytes_of(192);
    uint32_t *keys = U32S(99, 99);
    uint32_t *values = U32S(99, 99);
    size_t *cursor = SIZES(0);
    size_t *count = SIZES(99);

    STATUS(odht_u32_u32_init(bytes, 192, 13, 87), ODHT_OK);
    STATUS(odht_u32_u32_walk(bytes, 192, cursor, keys, 2, values, 2, count), ODHT_OK);
    EQUAL(*count, 0);
    STATUS(odht_u32_u32_insert(bytes, 192, 3, 4, NULL), ODHT_OK);
    STATUS(odht_u32_u32_insert(bytes, 192, 1, 2, NULL), ODHT_OK);
    *cursor = 0;
    STATUS(odht_u32_u32_walk(bytes, 192, cursor, keys, 2, values, 2, count), ODHT_OK);
    EQUAL(*count, 2);
    SAME_BYTES(keys, ((const uint32_t[]){ 1, 3 }), 8);
    SAME_BYTES(values, ((const uint32_t[]){ 2, 4 }), 8);
}

const struct test walk_tests[] = {
    TEST(three_pairs_in_two_parts),
    TEST(forged_count_is_not_believed),
    TEST(refused_walks_leave_the_cursor),
    TEST(a_walk_begins_where_the_cursor_is),
    TEST(pairs_in_slot_order),
    END_OF_TESTS
};
