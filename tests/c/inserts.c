/* Inserts of one pair and of many: new keys, replaced values, and FULL. */
#include <stdint.h>

#include "buffers.h"
#include "odht.h"
#include "subjects.h"
#include "tables.h"

enum { LEN = 256 };

/* The pairs of docs/FORMAT.md, "A worked example", make its 256 bytes in any order. */
static void three_inserts_make_the_worked_example(void)
{
    const uint8_t *expected = number_table();
    uint8_t *bytes = bytes_of(LEN);
    uint32_t *former = U32S(7);

    STATUS(odht_u64_u32_init(bytes, LEN, 3, 95), ODHT_OK);
    STATUS(odht_u64_u32_insert(bytes, LEN, 1, 2, former), ODHT_OK);
    STATUS(odht_u64_u32_insert(bytes, LEN, 3, 4, former), ODHT_OK);
    STATUS(odht_u64_u32_insert(bytes, LEN, 5, 6, former), ODHT_OK);
    EQUAL(*former, 7);
    SAME_BYTES(bytes, expected, LEN);
    STATUS(odht_u64_u32_init(bytes, LEN, 3, 95), ODHT_OK);
    STATUS(odht_u64_u32_insert_all(bytes, LEN, U64S(5, 3, 1), 3, U32S(6, 4, 2), 3, SIZES(0)),
           ODHT_OK);
    SAME_BYTES(bytes, expected, LEN);
}

/* Of the worked example, where the value of 3 is at byte 220. */
static void one_value_is_replaced(void)
{
    uint8_t *bytes = number_table();
    uint8_t *expected = number_table();
    uint32_t *former = U32S(7);

    expected[220] = 9;
    expected[223] = 0x80;
    STATUS(odht_u64_u32_insert(bytes, LEN, 3, 0x80000009, former), ODHT_REPLACED);
    EQUAL(*former, 4);
    SAME_BYTES(bytes, expected, LEN);
}

/* A table of 16 slots at 13 percent, which take two items. */
static uint8_t *small_table(void)
{
    uint8_t *bytes = bytes_of(LEN);

    STATUS(odht_u64_u32_init(bytes, LEN, 2, 13), ODHT_OK);
    return bytes;
}

/* At the maximum a present key gets its new value, and a new key is not inserted. */
static void a_list_stops_at_the_first_key_that_has_no_room(void)
{
    uint8_t *bytes = small_table();
    size_t *accepted = SIZES(99);
    uint32_t *value = U32S(99);

    STATUS(odht_u64_u32_insert_all(bytes, LEN, U64S(1, 2, 1, 2, 3, 1), 6, U32S(1, 2, 7, 8, 3, 9),
                                   6, accepted),
           ODHT_FULL);
    EQUAL(*accepted, 4);
    STATUS(odht_u64_u32_get(bytes, LEN, 1, value), ODHT_OK);
    EQUAL(*value, 7);
    STATUS(odht_u64_u32_get(bytes, LEN, 2, value), ODHT_OK);
    EQUAL(*value, 8);
    STATUS(odht_u64_u32_get(bytes, LEN, 3, value), ODHT_ABSENT);
    STATUS(odht_u64_u32_check(bytes, LEN), ODHT_OK);
}

static void a_full_table_is_left(void)
{
    uint8_t *bytes = small_table();
    uint8_t *before;
    uint32_t *former = U32S(99);
    size_t *accepted = SIZES(99);

    STATUS(odht_u64_u32_insert_all(bytes, LEN, U64S(1, 2), 2, U32S(1, 2), 2, accepted), ODHT_OK);
    EQUAL(*accepted, 2);
    before = copy_of(bytes, LEN);
    STATUS(odht_u64_u32_insert(bytes, LEN, 3, 3, former), ODHT_FULL);
    EQUAL(*former, 99);
    STATUS(odht_u64_u32_insert_all(bytes, LEN, U64S(3, 1), 2, U32S(3, 9), 2, accepted), ODHT_FULL);
    EQUAL(*accepted, 0);
    SAME_BYTES(bytes, before, LEN);
}

/* A list of nothing is inserted, and lists of different lengths are not looked at. */
static void other_lengths_are_refused(void)
{
    uint8_t *bytes = number_table();
    size_t *accepted = SIZES(99);

    freeze(bytes);
    STATUS(odht_u64_u32_insert_all(bytes, LEN, U64S(1, 7), 2, U32S(5), 1, accepted),
           ODHT_BAD_LENGTHS);
    STATUS(odht_u64_u32_insert_all(bytes, LEN, U64S(1), 1, U32S(5, 5), 2, accepted),
           ODHT_BAD_LENGTHS);
    STATUS(odht_u64_u32_insert_all(bytes, 31, U64S(1), 1, U32S(5, 5), 2, accepted),
           ODHT_BAD_LENGTHS);
    EQUAL(*accepted, 99);
    bytes = number_table();
    STATUS(odht_u64_u32_insert_all(bytes, LEN, NULL, 0, NULL, 0, accepted), ODHT_OK);
    EQUAL(*accepted, 0);
    SAME_BYTES(bytes, number_table(), LEN);
}

const struct test insert_tests[] = {
    TEST(three_inserts_make_the_worked_example),
    TEST(one_value_is_replaced),
    TEST(a_list_stops_at_the_first_key_that_has_no_room),
    TEST(a_full_table_is_left),
    TEST(other_lengths_are_refused),
    END_OF_TESTS
};
