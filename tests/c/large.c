/* Tables with many slots. One is large enough that lookups of many keys prefetch, and one has no free slot. */
#include <stdint.h>
#include <string.h>

#include "buffers.h"
#include "odht.h"
#include "placing.h"
#include "random.h"
#include "reading.h"
#include "subjects.h"

enum {
    LIST = 300003,
    LIST_SLOTS = 1 << 20,
    LIST_ITEMS = 900000,
    FULL_SLOTS = 65536,
    STRESS_SLOTS = 131072
};

static const struct shape shape = { 4, 4, FX };

/* Pairs of which many have the key of the pair before, and most keys come again later. */
static void fill_repeating(uint32_t *keys, uint32_t *values)
{
    struct random random = { 20 };
    uint32_t key = 0;

    for (size_t index = 0; index < LIST; index++) {
        if (random_byte(&random) >= 64)
            key = random_word(&random) & 0x1ffff;
        keys[index] = key;
        values[index] = random_word(&random);
    }
}

/* The list pair by pair: into a table of the library, and by the second writing. */
static void insert_each(uint8_t *single, uint8_t *placed, size_t len, const uint32_t *keys,
                        const uint32_t *values)
{
    for (size_t index = 0; index < LIST; index++) {
        uint32_t status = odht_u32_u32_insert(single, len, keys[index], values[index], NULL);

        HOLDS(status == ODHT_OK || status == ODHT_REPLACED);
        place_pair(placed, len, shape, (const uint8_t *)&keys[index],
                   (const uint8_t *)&values[index]);
    }
}

static void a_list_and_single_inserts_leave_the_same_bytes(void)
{
    size_t len = image_len(shape, LIST_SLOTS);
    uint8_t *single = bytes_of(len);
    uint8_t *placed = bytes_of(len);
    uint8_t *at_once = bytes_of(len);
    uint32_t *keys = numbers_of(LIST * sizeof *keys);
    uint32_t *values = numbers_of(LIST * sizeof *values);
    size_t *accepted = SIZES(0);

    fill_repeating(keys, values);
    place_nothing(placed, shape, LIST_SLOTS, factor_of_percent(87));
    STATUS(odht_u32_u32_init(single, len, LIST_ITEMS, 87), ODHT_OK);
    insert_each(single, placed, len, keys, values);
    STATUS(odht_u32_u32_init(at_once, len, LIST_ITEMS, 87), ODHT_OK);
    STATUS(odht_u32_u32_insert_all(at_once, len, keys, LIST, values, LIST, accepted), ODHT_OK);
    EQUAL(*accepted, LIST);
    SAME_BYTES(single, placed, len);
    SAME_BYTES(at_once, placed, len);
    STATUS(odht_u32_u32_check(at_once, len), ODHT_OK);
}

/*
 * Inserts the keys from 0 to 65,535, each with the multiplier times the key as its value. Before it was that with the
 * multiplier `before`, or the key was absent where this is 0.
 */
static void insert_numbers(uint8_t *bytes, size_t len, uint32_t multiplier, uint32_t before)
{
    for (uint32_t key = 0; key < 65536; key++) {
        uint32_t former = 5;

        STATUS(odht_u32_u32_insert(bytes, len, key, multiplier * key, &former),
               before == 0 ? ODHT_OK : ODHT_REPLACED);
        EQUAL(former, before == 0 ? 5 : before * key);
    }
}

/* Finds each with its value. */
static void find_numbers(const uint8_t *bytes, size_t len, uint32_t multiplier)
{
    for (uint32_t key = 0; key < 65536; key++) {
        uint32_t value = 5;

        STATUS(odht_u32_u32_get(bytes, len, key, &value), ODHT_OK);
        EQUAL(value, multiplier * key);
    }
}

static void stress(void)
{
    size_t len = image_len(shape, STRESS_SLOTS);
    uint8_t *bytes = bytes_of(len);

    STATUS(odht_u32_u32_init(bytes, len, 65536, 87), ODHT_OK);
    insert_numbers(bytes, len, 3, 0);
    find_numbers(bytes, len, 3);
    insert_numbers(bytes, len, 7, 3);
    find_numbers(bytes, len, 7);
    STATUS(odht_u32_u32_check(bytes, len), ODHT_OK);
}

/* Makes the header of a table with 65,535 items say that there is one less. */
static void state_one_less(uint8_t *bytes)
{
    bytes[8] = 0xfe;
    bytes[9] = 0xff;
    bytes[10] = 0;
}

/* 65,536 keys in as many slots: the last is inserted where the header says that there is room for it. */
static void a_key_that_a_full_table_has_not(void)
{
    size_t len = image_len(shape, FULL_SLOTS);
    uint8_t *bytes = bytes_of(len);
    uint8_t *before = bytes_of(len);
    uint32_t value = 5;

    STATUS(odht_u32_u32_init(bytes, len, 65535, 100), ODHT_OK);
    for (uint32_t key = 0; key < 65535; key++)
        STATUS(odht_u32_u32_insert(bytes, len, key, 3 * key, NULL), ODHT_OK);
    STATUS(odht_u32_u32_insert(bytes, len, 65535, 3 * 65535, NULL), ODHT_FULL);
    state_one_less(bytes);
    STATUS(odht_u32_u32_insert(bytes, len, 65535, 3 * 65535, NULL), ODHT_OK);
    HOLDS(memchr(bytes + len - FULL_SLOTS - 16, 255, FULL_SLOTS + 16) == NULL);
    find_numbers(bytes, len, 3);
    state_one_less(bytes);
    memcpy(before, bytes, len);
    STATUS(odht_u32_u32_get(bytes, len, 65536, &value), ODHT_ABSENT);
    EQUAL(value, 5);
    STATUS(odht_u32_u32_insert(bytes, len, 65536, 1, NULL), ODHT_FULL);
    SAME_BYTES(bytes, before, len);
    STATUS(odht_u32_u32_check(bytes, len), ODHT_WRONG_ITEM_COUNT);
}

const struct test large_tests[] = {
    TEST(a_list_and_single_inserts_leave_the_same_bytes),
    TEST(stress),
    TEST(a_key_that_a_full_table_has_not),
    END_OF_TESTS
};
