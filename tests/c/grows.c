/*
 * Growth into the caller's bytes: full tables, whose growth was worked out from docs/FORMAT.md outside the library, and
 * errors.
 */
#include <stdint.h>
#include <string.h>

#include "buffers.h"
#include "odht.h"
#include "subjects.h"
#include "tables.h"

/* The length in bytes of tables of 16 and of 32 slots with entries of twelve bytes. */
enum { FULL_LEN = 256, GROWN_LEN = 464 };

/* An item, its slot and its tag. */
struct item {
    size_t slot;
    uint8_t key;
    uint8_t tag;
};

/*
 * The items of the full table in 32 slots. 35 and 3 have the last slot as their home, as in 16 slots, where 3 came
 * first and 35 went to the next slot of the probe order, slot 0. So in slot order 35 is placed before 3.
 */
static const struct item grown[] = {
    { 0, 3, 58 }, { 7, 11, 87 }, { 8, 8, 28 }, { 9, 5, 97 }, { 10, 2, 39 }, { 18, 10, 67 },
    { 19, 7, 8 }, { 20, 4, 78 }, { 21, 1, 19 }, { 28, 12, 106 }, { 29, 9, 48 }, { 30, 6, 117 },
    { 31, 35, 44 },
};

/* 13 items in 16 slots at 87 percent, which take no more: 3, after it 35, and 1 to 12. Values are twice the keys. */
static uint8_t *full_table(void)
{
    static const uint8_t keys[] = { 3, 35, 1, 2, 4, 5, 6, 7, 8, 9, 10, 11, 12 };
    uint8_t *bytes = bytes_of(FULL_LEN);

    STATUS(odht_u64_u32_init(bytes, FULL_LEN, 13, 87), ODHT_OK);
    for (size_t index = 0; index < sizeof keys; index++)
        STATUS(odht_u64_u32_insert(bytes, FULL_LEN, keys[index], 2u * keys[index], NULL), ODHT_OK);
    return bytes;
}

/* Writes an item by docs/FORMAT.md, "Layout". */
static void write_item(uint8_t *bytes, struct item item)
{
    bytes[32 + 12 * item.slot] = item.key;
    bytes[32 + 12 * item.slot + 8] = 2 * item.key;
    bytes[416 + item.slot] = item.tag;
    if (item.slot < 16)
        bytes[448 + item.slot] = item.tag;
}

/* The bytes of `grown` by docs/FORMAT.md, "Layout". */
static uint8_t *grown_table(void)
{
    static const struct change header[] = {
        { 0, 79 }, { 1, 68 }, { 2, 72 }, { 3, 84 }, { 4, 1 }, { 5, 8 }, { 6, 4 }, { 7, 32 },
        { 8, 13 }, { 16, 32 }, { 27, 2 }, { 28, 0xb7 }, { 29, 0xde }, END_OF_CHANGES
    };
    uint8_t *bytes = bytes_of(GROWN_LEN);

    memset(bytes, 0, GROWN_LEN);
    memset(bytes + 416, 255, 48);
    change(bytes, header);
    for (size_t index = 0; index < sizeof grown / sizeof grown[0]; index++)
        write_item(bytes, grown[index]);
    return bytes;
}

static void a_full_table_grows(void)
{
    const uint8_t *bytes = full_table();
    uint8_t *out = bytes_of(500);
    size_t *len = SIZES(0);

    freeze(bytes);
    STATUS(odht_u64_u32_grow(bytes, FULL_LEN, out, 500, len), ODHT_OK);
    EQUAL(*len, GROWN_LEN);
    SAME_BYTES(out, grown_table(), GROWN_LEN);
    ALL_BYTES(out + GROWN_LEN, 500 - GROWN_LEN, FILL);
}

static void a_grown_table_takes_more(void)
{
    static const uint8_t keys[] = { 3, 35, 1, 12, 40 };
    uint8_t *bytes = full_table();
    uint8_t *out = bytes_of(GROWN_LEN);
    uint32_t *value = U32S(0);

    STATUS(odht_u64_u32_insert(bytes, FULL_LEN, 40, 80, value), ODHT_FULL);
    EQUAL(*value, 0);
    STATUS(odht_u64_u32_grow(bytes, FULL_LEN, out, GROWN_LEN, NULL), ODHT_OK);
    STATUS(odht_u64_u32_insert(out, GROWN_LEN, 40, 80, value), ODHT_OK);
    STATUS(odht_u64_u32_check(out, GROWN_LEN), ODHT_OK);
    for (size_t index = 0; index < sizeof keys; index++) {
        in_case("key", keys[index]);
        STATUS(odht_u64_u32_get(out, GROWN_LEN, keys[index], value), ODHT_OK);
        EQUAL(*value, 2 * keys[index]);
    }
}

static void too_few_bytes_tell_the_grown_length(void)
{
    const uint8_t *bytes = full_table();
    uint8_t *out = bytes_of(GROWN_LEN - 1);
    size_t *len = SIZES(0);

    STATUS(odht_u64_u32_grow(bytes, FULL_LEN, bytes_of(0), 0, len), ODHT_TOO_SMALL);
    EQUAL(*len, GROWN_LEN);
    *len = 0;
    STATUS(odht_u64_u32_grow(bytes, FULL_LEN, out, GROWN_LEN - 1, len), ODHT_TOO_SMALL);
    EQUAL(*len, GROWN_LEN);
    ALL_BYTES(out, GROWN_LEN - 1, FILL);
}

static void refused_growths(void)
{
    static const struct {
        struct change changes[CHANGES];
        uint32_t expected;
    } rows[] = {
        { { { 0, 80 }, END_OF_CHANGES }, ODHT_WRONG_TAG },
        /* the factors 0 and 654 */
        { { { 28, 0 }, { 29, 0 }, END_OF_CHANGES }, ODHT_LOAD_FACTOR_TOO_SMALL },
        { { { 28, 0x8e }, { 29, 2 }, END_OF_CHANGES }, ODHT_LOAD_FACTOR_TOO_SMALL },
        /* 2^63 items, twice which does not fit 64 bits, and then 2^62, for which 2^63 slots are too few */
        { { { 28, 0xff }, { 29, 0xff }, { 15, 0x80 }, END_OF_CHANGES }, ODHT_CAPACITY },
        { { { 28, 0xff }, { 29, 0xff }, { 15, 0x40 }, END_OF_CHANGES }, ODHT_CAPACITY },
    };
    uint8_t *out = bytes_of(GROWN_LEN);
    size_t *len = SIZES(5);

    for (size_t row = 0; row < sizeof rows / sizeof rows[0]; row++) {
        uint8_t *bytes = full_table();

        in_case("row", row);
        change(bytes, rows[row].changes);
        STATUS(odht_u64_u32_grow(bytes, FULL_LEN, out, GROWN_LEN, len), rows[row].expected);
        EQUAL(*len, 5);
        ALL_BYTES(out, GROWN_LEN, FILL);
    }
}

/* The key of 16 bytes whose hash is this number. */
static const uint8_t *key_of(uint8_t hash)
{
    return BYTES(0, 0, 0, 0, 0, 0, 0, 0, 0, 0, 0, 0, hash, 0, 0, 0);
}

/* Two keys of home 15 in 16 and in 32 slots: docs/FORMAT.md, "Growth". */
static void keys_of_16_bytes_grow_in_slot_order(void)
{
    uint8_t *bytes = bytes_of(384);
    uint8_t *out = bytes_of(720);
    size_t *len = SIZES(0);
    uint32_t *value = U32S(0);

    STATUS(odht_b16_u32_init(bytes, 384, 2, 13), ODHT_OK);
    STATUS(odht_b16_u32_insert(bytes, 384, key_of(15), 30, value), ODHT_OK);
    STATUS(odht_b16_u32_insert(bytes, 384, key_of(47), 94, value), ODHT_OK);
    EQUAL(bytes[32 + 20 * 15 + 12], 15);
    EQUAL(bytes[32 + 20 * 0 + 12], 47);
    STATUS(odht_b16_u32_grow(bytes, 384, out, 720, len), ODHT_OK);
    EQUAL(*len, 720);
    STATUS(odht_b16_u32_check(out, 720), ODHT_OK);
    EQUAL(out[32 + 20 * 15 + 12], 47);
    EQUAL(out[32 + 20 * 16 + 12], 15);
    STATUS(odht_b16_u32_get(out, 720, key_of(47), value), ODHT_OK);
    EQUAL(*value, 94);
}

/* Below the maximum, docs/FORMAT.md, "Into bytes of a caller": 1024 slots with 3 items at 87 percent give 16. */
static void a_table_with_few_items_shrinks(void)
{
    size_t large = 32 + 1024 * 12 + 1024 + 16;
    uint8_t *bytes = bytes_of(large);
    uint8_t *out = bytes_of(FULL_LEN);
    size_t *len = SIZES(0);

    /* 890 is what 1024 slots take at 87 percent */
    STATUS(odht_u64_u32_init(bytes, large, 890, 87), ODHT_OK);
    STATUS(odht_u64_u32_insert(bytes, large, 1, 2, NULL), ODHT_OK);
    STATUS(odht_u64_u32_insert(bytes, large, 3, 4, NULL), ODHT_OK);
    STATUS(odht_u64_u32_insert(bytes, large, 5, 6, NULL), ODHT_OK);
    STATUS(odht_u64_u32_grow(bytes, large, out, FULL_LEN, len), ODHT_OK);
    EQUAL(*len, FULL_LEN);
    /* the worked example at another load factor */
    bytes = number_table();
    bytes[28] = 0xb7;
    bytes[29] = 0xde;
    SAME_BYTES(out, bytes, FULL_LEN);
}

/* A table of entries of twelve bytes with keys from 0 to below `items`, as many as it takes. */
static uint8_t *table_at_maximum(size_t *len, size_t items, uint8_t percent)
{
    uint8_t *bytes;

    STATUS(odht_u64_u32_bytes_needed(items, percent, len), ODHT_OK);
    bytes = bytes_of(*len);
    STATUS(odht_u64_u32_init(bytes, *len, items, percent), ODHT_OK);
    for (uint64_t key = 0; key < items; key++)
        STATUS(odht_u64_u32_insert(bytes, *len, key, 5, NULL), ODHT_OK);
    STATUS(odht_u64_u32_insert(bytes, *len, items, 5, NULL), ODHT_FULL);
    return bytes;
}

/* Columns of docs/FORMAT.md, "Growth": items, percent, slots, and slots after the growth. */
static void slots_before_and_after_a_growth(void)
{
    static const struct {
        size_t items;
        uint8_t percent;
        size_t before;
        size_t after;
    } rows[] = { { 0, 6, 16, 32 }, { 0, 1, 16, 128 }, { 13, 87, 16, 32 }, { 1, 6, 32, 64 } };
    size_t *len = SIZES(0);

    for (size_t row = 0; row < sizeof rows / sizeof rows[0]; row++) {
        uint8_t *bytes = table_at_maximum(len, rows[row].items, rows[row].percent);
        uint8_t *out = bytes_of(32 + 13 * rows[row].after + 16);

        in_case("row", row);
        EQUAL(*len, 32 + 13 * rows[row].before + 16);
        STATUS(odht_u64_u32_grow(bytes, *len, out, 32 + 13 * rows[row].after + 16, len), ODHT_OK);
        EQUAL(*len, 32 + 13 * rows[row].after + 16);
        STATUS(odht_u64_u32_insert(out, *len, rows[row].items, 5, NULL), ODHT_OK);
        STATUS(odht_u64_u32_check(out, *len), ODHT_OK);
    }
}

const struct test grow_tests[] = {
    TEST(slots_before_and_after_a_growth),
    TEST(a_full_table_grows),
    TEST(a_grown_table_takes_more),
    TEST(too_few_bytes_tell_the_grown_length),
    TEST(refused_growths),
    TEST(keys_of_16_bytes_grow_in_slot_order),
    TEST(a_table_with_few_items_shrinks),
    END_OF_TESTS
};
