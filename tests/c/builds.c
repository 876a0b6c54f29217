/* Tables built from pairs, with slots for their number or growing. */
#include <stdint.h>
#include <string.h>

#include "buffers.h"
#include "odht.h"
#include "subjects.h"

enum { FORTY = 40, FORTY_LEN = 32 + 64 * 12 + 64 + 16 };

/* Asserts a table of so many items, in which the value of each key is ten times the key. */
static void check_table(const uint8_t *table, size_t len, uint32_t items)
{
    size_t *count = SIZES(99);
    uint32_t *value = U32S(99);

    STATUS(odht_u64_u32_open(table, len), ODHT_OK);
    STATUS(odht_u64_u32_check(table, len), ODHT_OK);
    STATUS(odht_u64_u32_len(table, len, count), ODHT_OK);
    EQUAL(*count, items);
    for (uint32_t key = 0; key < items; key++) {
        in_case("key", key);
        STATUS(odht_u64_u32_get(table, len, key, value), ODHT_OK);
        EQUAL(*value, 10 * key);
    }
}

/* Slots 0, 1 and 2 of the worked order: key 0 has the home 0, key 1 the home 5, and key 2 the home 10. */
static void three_pairs_in_256_bytes(void)
{
    uint8_t *out = bytes_of(256);
    size_t *len = SIZES(0);

    STATUS(odht_u64_u32_build(U64S(0, 1, 2), 3, U32S(0, 10, 20), 3, 95, out, 256, len), ODHT_OK);
    EQUAL(*len, 256);
    check_table(out, 256, 3);
}

/* Of equal keys the last value counts, and what is behind the table is unchanged. */
static void of_equal_keys_the_last_counts(void)
{
    uint8_t *out = bytes_of(300);
    size_t *len = SIZES(0);

    STATUS(odht_u64_u32_build(U64S(1, 0, 1), 3, U32S(7, 0, 10), 3, 95, out, 300, len), ODHT_OK);
    EQUAL(*len, 256);
    check_table(out, 256, 2);
    ALL_BYTES(out + 256, 44, FILL);
    memset(out, FILL, 300);
    STATUS(odht_u64_u32_build_growing(U64S(1, 0, 1), 3, U32S(7, 0, 10), 3, out, 300, len),
           ODHT_OK);
    EQUAL(*len, 256);
    check_table(out, 256, 2);
    ALL_BYTES(out + 256, 44, FILL);
}

/* No pairs make an empty table of 16 slots. */
static void a_table_of_nothing(void)
{
    uint8_t *expected = bytes_of(256);
    uint8_t *out = bytes_of(256);
    size_t *len = SIZES(0);

    STATUS(odht_u64_u32_build(NULL, 0, NULL, 0, 100, out, 256, len), ODHT_OK);
    EQUAL(*len, 256);
    STATUS(odht_u64_u32_init(expected, 256, 0, 100), ODHT_OK);
    SAME_BYTES(out, expected, 256);
    STATUS(odht_u64_u32_get(out, 256, 1, NULL), ODHT_ABSENT);
    STATUS(odht_u64_u32_build_growing(NULL, 0, NULL, 0, out, 256, len), ODHT_OK);
    STATUS(odht_u64_u32_init(expected, 256, 0, 87), ODHT_OK);
    SAME_BYTES(out, expected, 256);
}

/* The keys from 0 on, and ten times each as its value. */
static void forty_pairs(uint64_t *keys, uint32_t *values)
{
    for (uint32_t index = 0; index < FORTY; index++) {
        keys[index] = index;
        values[index] = 10 * index;
    }
}

static void forty_pairs_that_grow_to_64_slots(void)
{
    uint64_t *keys = numbers_of(FORTY * sizeof *keys);
    uint32_t *values = numbers_of(FORTY * sizeof *values);
    uint8_t *out = bytes_of(FORTY_LEN);
    size_t *len = SIZES(0);

    forty_pairs(keys, values);
    STATUS(odht_u64_u32_build_growing(keys, FORTY, values, FORTY, out, FORTY_LEN, len), ODHT_OK);
    EQUAL(*len, 880);
    check_table(out, 880, FORTY);
}

static void too_few_bytes_tell_the_length(void)
{
    uint8_t *out = bytes_of(255);
    size_t *len = SIZES(0);

    STATUS(odht_u64_u32_build(U64S(1), 1, U32S(10), 1, 95, out, 255, len), ODHT_TOO_SMALL);
    EQUAL(*len, 256);
    *len = 0;
    STATUS(odht_u64_u32_build(U64S(1), 1, U32S(10), 1, 95, bytes_of(0), 0, len), ODHT_TOO_SMALL);
    EQUAL(*len, 256);
    *len = 0;
    STATUS(odht_u64_u32_build_growing(U64S(1), 1, U32S(10), 1, out, 255, len), ODHT_TOO_SMALL);
    EQUAL(*len, 256);
    ALL_BYTES(out, 255, FILL);
}

static void refused_arguments(void)
{
    uint8_t *out = bytes_of(300);
    size_t *len = SIZES(0);

    STATUS(odht_u64_u32_build(U64S(1, 2), 2, U32S(10), 1, 95, out, 300, len), ODHT_BAD_LENGTHS);
    STATUS(odht_u64_u32_build(U64S(1, 2), 2, U32S(10), 1, 0, out, 300, len), ODHT_BAD_LENGTHS);
    STATUS(odht_u64_u32_build_growing(U64S(1, 2), 2, U32S(10), 1, out, 300, len),
           ODHT_BAD_LENGTHS);
    STATUS(odht_u64_u32_build(U64S(1), 1, U32S(10), 1, 0, out, 300, len), ODHT_BAD_PERCENT);
    STATUS(odht_u64_u32_build(U64S(1), 1, U32S(10), 1, 101, out, 300, len), ODHT_BAD_PERCENT);
    STATUS(odht_u64_u32_build(U64S(1), 1, U32S(10), 1, 255, out, 300, len), ODHT_BAD_PERCENT);
    EQUAL(*len, 0);
    ALL_BYTES(out, 300, FILL);
}

/* Keys of 16 bytes whose hash is their number, and ten times each as its value. */
static void hashed_pairs(uint8_t *keys, uint32_t *values, size_t count)
{
    memset(keys, 0, 16 * count);
    for (size_t index = 0; index < count; index++) {
        keys[16 * index + 12] = (uint8_t)index;
        values[index] = 10 * (uint32_t)index;
    }
}

/* Asserts a table of these keys. */
static void check_hashes(const uint8_t *table, size_t len, const uint8_t *keys, size_t count)
{
    uint32_t *value = U32S(99);

    STATUS(odht_b16_u32_check(table, len), ODHT_OK);
    for (size_t index = 0; index < count; index++) {
        in_case("key", index);
        STATUS(odht_b16_u32_get(table, len, keys + 16 * index, value), ODHT_OK);
        EQUAL(*value, 10 * index);
    }
}

static void fourteen_keys_of_16_bytes(void)
{
    uint8_t *keys = bytes_of(14 * 16);
    uint32_t *values = numbers_of(14 * sizeof *values);
    uint8_t *out = bytes_of(384);
    uint8_t *grown = bytes_of(720);
    size_t *len = SIZES(0);

    hashed_pairs(keys, values, 14);
    STATUS(odht_b16_u32_build(keys, 3, values, 3, 95, out, 384, len), ODHT_OK);
    EQUAL(*len, 384);
    check_hashes(out, 384, keys, 3);
    STATUS(odht_b16_u32_build_growing(keys, 14, values, 14, grown, 720, len), ODHT_OK);
    EQUAL(*len, 720);
    check_hashes(grown, 720, keys, 14);
}

const struct test build_tests[] = {
    TEST(three_pairs_in_256_bytes),
    TEST(of_equal_keys_the_last_counts),
    TEST(a_table_of_nothing),
    TEST(forty_pairs_that_grow_to_64_slots),
    TEST(too_few_bytes_tell_the_length),
    TEST(refused_arguments),
    TEST(fourteen_keys_of_16_bytes),
    END_OF_TESTS
};
