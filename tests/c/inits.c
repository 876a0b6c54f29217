/* New tables: their length, their bytes, and the buffer after an error. */
#include <stdint.h>
#include <string.h>

#include "buffers.h"
#include "calls.h"
#include "odht.h"
#include "subjects.h"
#include "tables.h"

enum { LEN = 192, NO_LEN = 99 };

/* Columns of docs/FORMAT.md, "Load factors": items, percent and slots. Entries have twelve bytes. */
static void lengths_by_items_and_percent(void)
{
    static const struct {
        size_t items;
        uint8_t percent;
        size_t slots;
    } rows[] = {
        { 0, 87, 16 }, { 13, 87, 16 }, { 14, 87, 32 }, { 40, 87, 64 }, { 3, 95, 16 },
        { 15, 100, 16 }, { 16, 100, 32 }, { 1000, 100, 1024 }, { 1, 6, 32 }, { 1, 1, 128 },
    };
    size_t *len = SIZES(NO_LEN);

    for (size_t row = 0; row < sizeof rows / sizeof rows[0]; row++) {
        in_case("row", row);
        STATUS(odht_u64_u32_bytes_needed(rows[row].items, rows[row].percent, len), ODHT_OK);
        EQUAL(*len, 32 + 13 * rows[row].slots + 16);
    }
}

/*
 * 2^62 items at 100 percent take 2^63 slots, whose length passes 2^64; so does that of 2^60 slots with entries of 16
 * bytes. 2^59 slots with 12 bytes are 13 * 2^59 + 48 bytes, which are below 2^64.
 */
static void lengths_that_do_not_fit(void)
{
    size_t *len = SIZES(NO_LEN);
    size_t one = 1;

    STATUS(odht_u64_u32_bytes_needed(one << 63, 100, len), ODHT_CAPACITY);
    STATUS(odht_u64_u32_bytes_needed(SIZE_MAX, 100, len), ODHT_CAPACITY);
    STATUS(odht_u64_u32_bytes_needed(SIZE_MAX, 1, len), ODHT_CAPACITY);
    STATUS(odht_u64_u32_bytes_needed(one << 62, 100, len), ODHT_CAPACITY);
    STATUS(odht_u64_u64_bytes_needed((one << 60) - (one << 50), 100, len), ODHT_CAPACITY);
    STATUS(odht_u64_u32_bytes_needed(one << 63, 0, len), ODHT_BAD_PERCENT);
    STATUS(odht_u64_u32_bytes_needed(3, 0, len), ODHT_BAD_PERCENT);
    STATUS(odht_u64_u32_bytes_needed(3, 101, len), ODHT_BAD_PERCENT);
    STATUS(odht_u64_u32_bytes_needed(3, 255, len), ODHT_BAD_PERCENT);
    EQUAL(*len, NO_LEN);
    STATUS(odht_u64_u32_bytes_needed((one << 59) - (one << 49), 100, len), ODHT_OK);
    EQUAL(*len, 13 * (one << 59) + 48);
}

/* 16 slots at 87 percent, keys and values of four bytes: header, entries, control bytes. */
static void the_bytes_of_a_new_table(void)
{
    static const struct change header[] = {
        { 0, 'O' }, { 1, 'D' }, { 2, 'H' }, { 3, 'T' }, { 4, 1 }, { 5, 4 }, { 6, 4 }, { 7, 32 },
        { 16, 16 }, { 27, 2 }, { 28, 0xb7 }, { 29, 0xde }, END_OF_CHANGES
    };
    uint8_t *expected = bytes_of(LEN);
    uint8_t *bytes = bytes_of(LEN);

    memset(expected, 0, LEN);
    memset(expected + 160, 255, 32);
    change(expected, header);
    STATUS(odht_u32_u32_init(bytes, LEN, 13, 87), ODHT_OK);
    SAME_BYTES(bytes, expected, LEN);
    /* with the pair of 1 and 2, in slot 5, whose tag is 19 */
    change(expected, (const struct change[]){ { 8, 1 }, { 72, 1 }, { 76, 2 }, { 165, 19 },
                                              { 181, 19 }, END_OF_CHANGES });
    STATUS(odht_u32_u32_insert(bytes, LEN, 1, 2, NULL), ODHT_OK);
    SAME_BYTES(bytes, expected, LEN);
}

/* In a new table nothing is left of what the bytes were. */
static void a_new_table_over_another(void)
{
    uint8_t *bytes = number_table();
    uint8_t *expected = bytes_of(256);

    STATUS(odht_u64_u32_init(expected, 256, 3, 95), ODHT_OK);
    STATUS(odht_u64_u32_init(bytes, 256, 3, 95), ODHT_OK);
    SAME_BYTES(bytes, expected, 256);
    STATUS(odht_u64_u32_get(bytes, 256, 1, NULL), ODHT_ABSENT);
}

/* Makes a new table at 87 percent in so many bytes, which fails and leaves them. */
static void check_refused(size_t len, size_t items, uint8_t percent, uint32_t expected)
{
    uint8_t *bytes = bytes_of(len);

    freeze(bytes);
    STATUS(odht_u32_u32_init(bytes, len, items, percent), expected);
    ALL_BYTES(bytes, len, FILL);
}

static void rejected_stores_stay(void)
{
    check_refused(191, 0, 87, ODHT_INIT_LENGTH);
    check_refused(193, 13, 87, ODHT_INIT_LENGTH);
    check_refused(0, 0, 87, ODHT_INIT_LENGTH);
    check_refused(31, 0, 87, ODHT_INIT_LENGTH);
    check_refused(LEN, 14, 87, ODHT_INIT_LENGTH);
    check_refused(LEN, (size_t)1 << 63, 87, ODHT_CAPACITY);
    check_refused(191, (size_t)1 << 63, 87, ODHT_CAPACITY);
    check_refused(LEN, 13, 0, ODHT_BAD_PERCENT);
    check_refused(LEN, 13, 101, ODHT_BAD_PERCENT);
    check_refused(191, (size_t)1 << 63, 0, ODHT_BAD_PERCENT);
}

/* Each shape, with room before and behind that is checked where buffers are dropped. */
static void a_new_table_in_each_shape(void)
{
    for (size_t index = 0; index < SHAPES; index++) {
        const struct calls *calls = &all_shapes[index];
        size_t *len = SIZES(0);
        uint8_t *bytes;

        in_case(calls->name, index);
        STATUS(calls->bytes_needed(13, 87, len), ODHT_OK);
        EQUAL(*len, 32 + 16 * (calls->shape.key + calls->shape.value + 1) + 16);
        bytes = bytes_of(*len);
        STATUS(calls->init(bytes, *len, 13, 87), ODHT_OK);
        STATUS(calls->check(bytes, *len), ODHT_OK);
        ALL_BYTES(bytes + *len - 32, 32, 255);
    }
}

const struct test init_tests[] = {
    TEST(lengths_by_items_and_percent),
    TEST(lengths_that_do_not_fit),
    TEST(the_bytes_of_a_new_table),
    TEST(a_new_table_over_another),
    TEST(rejected_stores_stay),
    TEST(a_new_table_in_each_shape),
    END_OF_TESTS
};
