/* Orders of inserts: tables whose only order is known, a table that no inserts make, and errors. */
#include <stdint.h>
#include <string.h>

#include "buffers.h"
#include "odht.h"
#include "subjects.h"

/* A number that no call has written. */
enum { UNTOUCHED = 777 };

/* The lengths of a table of 16 slots, and of one of 64 slots with keys of 16 bytes. */
enum { LEN = 256, HOME_LEN = 1392 };

/* So many places for slots. */
static size_t *places(size_t count)
{
    size_t *slots = numbers_of(count * sizeof *slots);

    for (size_t index = 0; index < count; index++)
        slots[index] = UNTOUCHED;
    return slots;
}

static void check_untouched(const size_t *slots, size_t count)
{
    for (size_t index = 0; index < count; index++)
        EQUAL(slots[index], UNTOUCHED);
}

/* An empty table of 16 slots, for 13 items at 87 percent. */
static uint8_t *empty_table(void)
{
    uint8_t *bytes = bytes_of(LEN);

    STATUS(odht_u64_u32_init(bytes, LEN, 13, 87), ODHT_OK);
    return bytes;
}

/* 3 and then 19 in 16 slots. Both have the home 15, so 3 is in slot 15, and 19 in slot 0 after it. */
static uint8_t *wrapped_table(void)
{
    uint8_t *bytes = empty_table();

    STATUS(odht_u64_u32_insert(bytes, LEN, 3, 10, NULL), ODHT_OK);
    STATUS(odht_u64_u32_insert(bytes, LEN, 19, 10, NULL), ODHT_OK);
    return bytes;
}

static void an_empty_table_has_an_order(void)
{
    STATUS(odht_u64_u32_insert_order(empty_table(), LEN, places(0), 0), ODHT_OK);
}

static void a_slot_behind_another_comes_after_it(void)
{
    const uint8_t *bytes = wrapped_table();
    size_t *slots = places(2);

    freeze(bytes);
    STATUS(odht_u64_u32_insert_order(bytes, LEN, slots, 2), ODHT_OK);
    EQUAL(slots[0], 15);
    EQUAL(slots[1], 0);
}

static void other_lengths_are_refused(void)
{
    const uint8_t *bytes = wrapped_table();
    size_t *slots = places(3);

    STATUS(odht_u64_u32_insert_order(bytes, LEN, slots, 0), ODHT_BAD_LENGTHS);
    STATUS(odht_u64_u32_insert_order(bytes, LEN, slots, 1), ODHT_BAD_LENGTHS);
    STATUS(odht_u64_u32_insert_order(bytes, LEN, slots, 3), ODHT_BAD_LENGTHS);
    check_untouched(slots, 3);
}

static void what_the_check_refuses_is_refused_first(void)
{
    uint8_t *bytes = wrapped_table();
    size_t *slots = places(2);

    /* the upper byte of the padding */
    bytes[31] = 1;
    STATUS(odht_u64_u32_insert_order(bytes, LEN, slots, 2), ODHT_NON_ZERO_PADDING);
    STATUS(odht_u64_u32_insert_order(bytes, LEN, slots, 0), ODHT_NON_ZERO_PADDING);
    STATUS(odht_u64_u32_insert_order(bytes_of(31), 31, slots, 2), ODHT_TOO_SHORT);
    STATUS(odht_b16_u32_insert_order(bytes, LEN, slots, 2), ODHT_WRONG_SIZE);
    check_untouched(slots, 2);
}

/* The key of 16 bytes whose hash is this number. */
static void write_key(uint8_t *key, uint8_t hash)
{
    memset(key, 0, 16);
    key[12] = hash;
}

/* The keys 0 to 32 and 49 to 63 in 64 slots, each in its home. All their tags are 0. */
static uint8_t *home_table(void)
{
    uint8_t *bytes = bytes_of(HOME_LEN);
    uint8_t *key = bytes_of(16);

    STATUS(odht_b16_u32_init(bytes, HOME_LEN, 48, 87), ODHT_OK);
    for (uint8_t number = 0; number < 64; number++) {
        write_key(key, number);
        if (number < 33 || number > 48)
            STATUS(odht_b16_u32_insert(bytes, HOME_LEN, key, 10, NULL), ODHT_OK);
    }
    return bytes;
}

static void a_table_that_no_inserts_make(void)
{
    uint8_t *bytes = home_table();
    size_t *slots = places(48);
    size_t *fewer = places(47);

    STATUS(odht_b16_u32_insert_order(bytes, HOME_LEN, slots, 48), ODHT_OK);
    /*
     * The keys 0 and 1 exchange their slots. In the probe order of key 0 slot 1 is the second position, after slot 0;
     * in that of key 1 slot 0 is the 48th, after the slots 1 to 32 and 49 to 63. So each would have to be there first.
     */
    bytes[44] = 1;
    bytes[64] = 0;
    freeze(bytes);
    STATUS(odht_b16_u32_check(bytes, HOME_LEN), ODHT_OK);
    STATUS(odht_b16_u32_insert_order(bytes, HOME_LEN, slots, 48), ODHT_UNMADE);
    STATUS(odht_b16_u32_insert_order(bytes, HOME_LEN, fewer, 47), ODHT_BAD_LENGTHS);
    check_untouched(fewer, 47);
}

const struct test order_tests[] = {
    TEST(an_empty_table_has_an_order),
    TEST(a_slot_behind_another_comes_after_it),
    TEST(other_lengths_are_refused),
    TEST(what_the_check_refuses_is_refused_first),
    TEST(a_table_that_no_inserts_make),
    END_OF_TESTS
};
