/* Opened tables: what a view finds, and that an opening with an error leaves the view unchanged. */
#include <stdint.h>
#include <string.h>

#include "buffers.h"
#include "odht.h"
#include "subjects.h"

enum { LEN = 256, HASH_LEN = 384 };

/* A table of 16 slots, for 13 items at 87 percent, with 3 to 30 and 19 to 190, which both have the home 15. */
static uint8_t *pair_table(void)
{
    uint8_t *bytes = bytes_of(LEN);

    STATUS(odht_u64_u32_init(bytes, LEN, 13, 87), ODHT_OK);
    STATUS(odht_u64_u32_insert(bytes, LEN, 3, 30, NULL), ODHT_OK);
    STATUS(odht_u64_u32_insert(bytes, LEN, 19, 190, NULL), ODHT_OK);
    return bytes;
}

static void a_view_finds_the_keys_of_its_table(void)
{
    const uint8_t *bytes = pair_table();
    odht_view *view = view_of_nothing();
    uint32_t *value = U32S(5);

    freeze(bytes);
    STATUS(odht_u64_u32_open_view(bytes, LEN, view), ODHT_OK);
    HOLDS(view->bytes == bytes);
    EQUAL(view->len, LEN);
    EQUAL(odht_u64_u32_view_len(view), 2);
    STATUS(odht_u64_u32_view_get(view, 4, value), ODHT_ABSENT);
    EQUAL(*value, 5);
    STATUS(odht_u64_u32_view_get(view, 19, value), ODHT_OK);
    EQUAL(*value, 190);
    STATUS(odht_u64_u32_view_get(view, 3, value), ODHT_OK);
    EQUAL(*value, 30);
}

static void a_view_finds_what_was_inserted_behind_it(void)
{
    uint8_t *bytes = pair_table();
    odht_view *view = view_of_nothing();
    uint32_t *value = U32S(0);

    STATUS(odht_u64_u32_open_view(bytes, LEN, view), ODHT_OK);
    STATUS(odht_u64_u32_insert(bytes, LEN, 4, 40, NULL), ODHT_OK);
    STATUS(odht_u64_u32_view_get(view, 4, value), ODHT_OK);
    EQUAL(*value, 40);
    EQUAL(odht_u64_u32_view_len(view), 3);
    /* a new table in the same bytes, as the header says of odht_*_init */
    STATUS(odht_u64_u32_init(bytes, LEN, 13, 87), ODHT_OK);
    STATUS(odht_u64_u32_view_get(view, 4, value), ODHT_ABSENT);
    EQUAL(odht_u64_u32_view_len(view), 0);
}

static void a_view_finds_many_keys_at_once(void)
{
    static const uint32_t expected[] = { 190, 5, 30 };
    const uint8_t *bytes = pair_table();
    odht_view *view = view_of_nothing();
    uint32_t *values = U32S(5, 5, 5);
    uint8_t *found = BYTES(7, 7, 7);

    STATUS(odht_u64_u32_open_view(bytes, LEN, view), ODHT_OK);
    STATUS(odht_u64_u32_view_get_all(view, U64S(19, 4, 3), 3, values, 3, found, 3), ODHT_OK);
    SAME_BYTES(values, expected, sizeof expected);
    SAME_BYTES(found, ((const uint8_t[]){ 1, 0, 1 }), 3);
    STATUS(odht_u64_u32_view_get_all(view, U64S(3, 19, 4), 3, values, 3, found, 2),
           ODHT_BAD_LENGTHS);
    STATUS(odht_u64_u32_view_get_all(view, U64S(3, 19, 4), 3, values, 2, found, 3),
           ODHT_BAD_LENGTHS);
    STATUS(odht_u64_u32_view_get_all(view, U64S(3, 19), 2, values, 3, found, 3), ODHT_BAD_LENGTHS);
    SAME_BYTES(values, expected, sizeof expected);
    SAME_BYTES(found, ((const uint8_t[]){ 1, 0, 1 }), 3);
}

/* A key of 16 bytes that are all this one. */
static uint8_t *key_of(uint8_t byte)
{
    return memset(bytes_of(16), byte, 16);
}

static void a_view_of_keys_of_16_bytes(void)
{
    uint8_t *bytes = bytes_of(HASH_LEN);
    odht_view *view = view_of_nothing();
    uint8_t *keys = bytes_of(32);
    uint32_t *values = U32S(5, 5);
    uint8_t *found = BYTES(7, 7);

    STATUS(odht_b16_u32_init(bytes, HASH_LEN, 7, 50), ODHT_OK);
    STATUS(odht_b16_u32_insert(bytes, HASH_LEN, key_of(2), 20, NULL), ODHT_OK);
    STATUS(odht_b16_u32_open_view(bytes, HASH_LEN, view), ODHT_OK);
    EQUAL(odht_b16_u32_view_len(view), 1);
    STATUS(odht_b16_u32_view_get(view, key_of(3), values), ODHT_ABSENT);
    EQUAL(values[0], 5);
    memset(keys, 3, 16);
    memset(keys + 16, 2, 16);
    STATUS(odht_b16_u32_view_get_all(view, keys, 2, values, 2, found, 2), ODHT_OK);
    SAME_BYTES(values, ((const uint32_t[]){ 5, 20 }), 8);
    SAME_BYTES(found, ((const uint8_t[]){ 0, 1 }), 2);
}

static void a_refused_opening_leaves_the_view(void)
{
    const uint8_t *bytes = pair_table();
    uint8_t *other = pair_table();
    odht_view *view = view_of_nothing();
    uint32_t *value = U32S(0);

    other[27] = 3;
    STATUS(odht_u64_u32_open_view(bytes, LEN, view), ODHT_OK);
    STATUS(odht_u64_u32_open_view(other, LEN, view), ODHT_WRONG_VERSION);
    STATUS(odht_u64_u32_view_get(view, 3, value), ODHT_OK);
    EQUAL(*value, 30);
    STATUS(odht_b16_u32_open_view(bytes, LEN, view), ODHT_WRONG_SIZE);
    EQUAL(view->len, LEN);
    HOLDS(view->bytes == bytes);
}

const struct test view_tests[] = {
    TEST(a_view_finds_the_keys_of_its_table),
    TEST(a_view_finds_what_was_inserted_behind_it),
    TEST(a_view_finds_many_keys_at_once),
    TEST(a_view_of_keys_of_16_bytes),
    TEST(a_refused_opening_leaves_the_view),
    END_OF_TESTS
};
