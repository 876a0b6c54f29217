/*
 * Each shape of the list once, and some also with their own calls: the length, an insert, a lookup, and a lookup of an
 * absent key. A table of sixteen slots takes 32 + 16 * (key + value) + 32 bytes.
 */
#include <stdint.h>
#include <string.h>

#include "buffers.h"
#include "calls.h"
#include "keys.h"
#include "odht.h"
#include "subjects.h"

static void u32_u32(void)
{
    uint8_t *table = bytes_of(192);
    size_t *len = SIZES(0);
    uint32_t *former = U32S(9);
    uint32_t *value = U32S(9);

    STATUS(odht_u32_u32_bytes_needed(3, 95, len), ODHT_OK);
    EQUAL(*len, 192);
    STATUS(odht_u32_u32_init(table, 192, 3, 95), ODHT_OK);
    STATUS(odht_u32_u32_insert(table, 192, 1, 2, former), ODHT_OK);
    EQUAL(*former, 9);
    STATUS(odht_u32_u32_insert(table, 192, 1, 4294967295, former), ODHT_REPLACED);
    EQUAL(*former, 2);
    STATUS(odht_u32_u32_get(table, 192, 1, value), ODHT_OK);
    EQUAL(*value, 4294967295);
    STATUS(odht_u32_u32_get(table, 192, 2, value), ODHT_ABSENT);
    EQUAL(*value, 4294967295);
}

static void u64_u64(void)
{
    uint8_t *table = bytes_of(320);
    size_t *len = SIZES(0);
    uint64_t *value = U64S(9);

    STATUS(odht_u64_u64_bytes_needed(3, 95, len), ODHT_OK);
    EQUAL(*len, 320);
    STATUS(odht_u64_u64_init(table, 320, 3, 95), ODHT_OK);
    STATUS(odht_u64_u64_insert(table, 320, 1, UINT64_MAX, value), ODHT_OK);
    EQUAL(*value, 9);
    STATUS(odht_u64_u64_get(table, 320, 1, value), ODHT_OK);
    EQUAL(*value, UINT64_MAX);
    STATUS(odht_u64_u64_get(table, 320, 2, value), ODHT_ABSENT);
    EQUAL(*value, UINT64_MAX);
}

static void sizes_of_sixteen_slots_at_95_percent(void)
{
    uint8_t *table = bytes_of(320);
    size_t *slots = SIZES(9);
    size_t *maximum = SIZES(9);
    uint8_t *percent = BYTES(9);

    STATUS(odht_u64_u64_init(table, 320, 3, 95), ODHT_OK);
    STATUS(odht_u64_u64_sizes(table + 1, 319, slots, maximum, percent), ODHT_WRONG_TAG);
    EQUAL(*slots, 9);
    EQUAL(*maximum, 9);
    EQUAL(*percent, 9);
    STATUS(odht_u64_u64_sizes(table, 320, slots, maximum, percent), ODHT_OK);
    EQUAL(*slots, 16);
    EQUAL(*maximum, 15);
    EQUAL(*percent, 94);
}

/* A key of so many bytes that are all this one. */
static uint8_t *key_of(size_t len, uint8_t byte)
{
    return memset(bytes_of(len), byte, len);
}

static void b16_u32(void)
{
    uint8_t *table = bytes_of(384);
    size_t *len = SIZES(0);
    uint32_t *value = U32S(9);

    STATUS(odht_b16_u32_bytes_needed(3, 95, len), ODHT_OK);
    EQUAL(*len, 384);
    STATUS(odht_b16_u32_init(table, 384, 3, 95), ODHT_OK);
    STATUS(odht_b16_u32_insert(table, 384, key_of(16, 1), 5, value), ODHT_OK);
    STATUS(odht_b16_u32_get(table, 384, key_of(16, 1), value), ODHT_OK);
    EQUAL(*value, 5);
    STATUS(odht_b16_u32_get(table, 384, key_of(16, 2), value), ODHT_ABSENT);
}

/* A test of a shape from hashes to numbers of 64 bits. */
#define HASHES_TO_U64(shape, key_len, expected_len) \
    static void shape(void) \
    { \
        uint8_t *table = bytes_of(expected_len); \
        size_t *len = SIZES(0); \
        uint64_t *value = U64S(9); \
        \
        STATUS(odht_##shape##_bytes_needed(3, 95, len), ODHT_OK); \
        EQUAL(*len, expected_len); \
        STATUS(odht_##shape##_init(table, *len, 3, 95), ODHT_OK); \
        STATUS(odht_##shape##_insert(table, *len, key_of(key_len, 1), 5, value), ODHT_OK); \
        EQUAL(*value, 9); \
        STATUS(odht_##shape##_get(table, *len, key_of(key_len, 1), value), ODHT_OK); \
        EQUAL(*value, 5); \
        STATUS(odht_##shape##_get(table, *len, key_of(key_len, 2), value), ODHT_ABSENT); \
        EQUAL(*value, 5); \
    }

HASHES_TO_U64(b16_u64, 16, 448)
HASHES_TO_U64(b20_u64, 20, 512)
HASHES_TO_U64(b32_u64, 32, 704)

static void a_set_of_16_bytes(void)
{
    uint8_t *table = bytes_of(320);
    size_t *len = SIZES(0);

    STATUS(odht_b16_bytes_needed(3, 95, len), ODHT_OK);
    EQUAL(*len, 320);
    STATUS(odht_b16_init(table, 320, 3, 95), ODHT_OK);
    STATUS(odht_b16_insert(table, 320, key_of(16, 1)), ODHT_OK);
    STATUS(odht_b16_insert(table, 320, key_of(16, 1)), ODHT_REPLACED);
    STATUS(odht_b16_contains(table, 320, key_of(16, 1)), ODHT_OK);
    STATUS(odht_b16_contains(table, 320, key_of(16, 2)), ODHT_ABSENT);
}

static void a_set_of_32_bytes(void)
{
    uint8_t *table = bytes_of(576);
    uint8_t *keys = bytes_of(64);
    size_t *len = SIZES(0);
    size_t *accepted = SIZES(9);
    uint8_t *found = BYTES(9, 9);

    STATUS(odht_b32_bytes_needed(3, 95, len), ODHT_OK);
    EQUAL(*len, 576);
    STATUS(odht_b32_init(table, 576, 3, 95), ODHT_OK);
    memset(keys, 1, 32);
    memset(keys + 32, 2, 32);
    STATUS(odht_b32_insert_all(table, 576, keys, 2, accepted), ODHT_OK);
    EQUAL(*accepted, 2);
    memset(keys, 2, 32);
    memset(keys + 32, 3, 32);
    STATUS(odht_b32_contains_all(table, 576, keys, 2, found, 2), ODHT_OK);
    SAME_BYTES(found, ((const uint8_t[]){ 1, 0 }), 2);
}

/* The same of a shape of the list, by the lengths of its keys and values. */
static void check_shape(const struct calls *calls)
{
    struct shape shape = calls->shape;
    size_t expected_len = 32 + 16 * (shape.key + shape.value) + 32;
    uint8_t *table = bytes_of(expected_len);
    uint8_t *keys = counted_keys(shape, 3);
    uint8_t *values = counted_values(shape, 3);
    uint8_t *value = numbers_of(shape.value);
    size_t *len = SIZES(0);

    STATUS(calls->bytes_needed(13, 87, len), ODHT_OK);
    EQUAL(*len, expected_len);
    STATUS(calls->init(table, *len, 13, 87), ODHT_OK);
    STATUS(calls->insert(table, *len, keys, values + shape.value, value), ODHT_OK);
    STATUS(calls->insert(table, *len, keys, values + 2 * shape.value, value), ODHT_REPLACED);
    SAME_BYTES(value, values + shape.value, shape.value);
    STATUS(calls->get(table, *len, keys, value), ODHT_OK);
    SAME_BYTES(value, values + 2 * shape.value, shape.value);
    STATUS(calls->get(table, *len, keys + 2 * shape.key, value), ODHT_ABSENT);
    STATUS(calls->check(table, *len), ODHT_OK);
}

static void each_shape(void)
{
    for (size_t index = 0; index < SHAPES; index++) {
        in_case(all_shapes[index].name, index);
        check_shape(&all_shapes[index]);
    }
}

static void the_version_is_that_of_the_header(void)
{
    EQUAL(odht_version(), ODHT_VERSION);
}

const struct test shape_tests[] = {
    TEST(u32_u32),
    TEST(u64_u64),
    TEST(sizes_of_sixteen_slots_at_95_percent),
    TEST(b16_u32),
    TEST(b16_u64),
    TEST(b20_u64),
    TEST(b32_u64),
    TEST(a_set_of_16_bytes),
    TEST(a_set_of_32_bytes),
    TEST(each_shape),
    TEST(the_version_is_that_of_the_header),
    END_OF_TESTS
};
