/* The whole check with a bound for searches: on tables of one hash, on forged ones, and on tables of random keys. */
#include <stdint.h>
#include <string.h>
#include <time.h>

#include "buffers.h"
#include "calls.h"
#include "forged.h"
#include "odht.h"
#include "placing.h"
#include "reading.h"
#include "subjects.h"

enum { SLOTS = 256, ITEMS = 222, BOUND = 32, SECONDS = 1 };

enum { FEW_SLOTS = 1 << 10, MANY_SLOTS = 1 << 14, MOST_SLOTS = 1 << 20 };

static const struct shape shape = { 16, 4, UN };

/* 222 keys of one hash fill 13 groups of its probe order, and 14 slots of the next: its searches read 14 groups. */
static void keys_of_one_hash(void)
{
    size_t len = image_len(shape, SLOTS);
    uint8_t *bytes = bytes_of(len);
    const uint8_t value[4] = { 0 };
    uint8_t key[16] = { 0 };
    struct reading table = { bytes, len, shape };

    key[12] = 77;
    place_nothing(bytes, shape, SLOTS, factor_of_percent(87));
    for (uint64_t number = 0; number < ITEMS; number++) {
        memcpy(key, &number, 8);
        place_pair(bytes, len, shape, key, value);
    }
    STATUS(odht_b16_u32_check(bytes, len), ODHT_OK);
    STATUS(odht_b16_u32_check_within(bytes, len, 13), ODHT_SEARCH_TOO_LONG);
    STATUS(odht_b16_u32_check_within(bytes, len, 16), ODHT_OK);
    for (size_t groups = 0; groups <= 17; groups++) {
        uint32_t expected = within_error(&table, ODHT_OK, groups);
        size_t *slot = SIZES(0);

        STATUS(odht_b16_u32_check_within(bytes, len, groups), expected);
        STATUS(odht_b16_u32_check_within_at(bytes, len, groups, slot), expected);
        EQUAL(*slot, error_slot(&table, expected, groups));
    }
}

/* In each more than 32 groups from one home on are full, of 64 and more. */
static const struct kind {
    const char *name;
    struct forged (*forge)(size_t slots);
} kinds[] = {
    { "one hash, slots", forge_one_hash },
    { "one home, slots", forge_one_home },
    { "few free slots, slots", forge_few_free_slots },
};

enum { FORGED_KINDS = sizeof kinds / sizeof kinds[0] };

/* Checks forged bytes with a bound, and that this takes no more processor time than it may. */
static void check_in_time(const struct forged *table, size_t groups, uint32_t expected)
{
    clock_t began = clock();

    STATUS(odht_b8_u32_check_within(table->bytes, table->len, groups), expected);
    HOLDS(clock() - began <= (clock_t)SECONDS * CLOCKS_PER_SEC);
}

/* Larger tables are made in one placement of buffers alone, since that takes long. */
static size_t at_most(size_t slots)
{
    return placement() == BEFORE_GUARD ? slots : FEW_SLOTS;
}

/* No search is longer than there are groups. */
static void forged_tables_are_valid(void)
{
    for (size_t index = 0; index < FORGED_KINDS; index++) {
        struct forged table = kinds[index].forge(FEW_SLOTS);

        in_case(kinds[index].name, FEW_SLOTS);
        STATUS(odht_b8_u32_check(table.bytes, table.len), ODHT_OK);
        STATUS(odht_b8_u32_check_within(table.bytes, table.len, FEW_SLOTS / 16), ODHT_OK);
    }
}

/* The whole check would compare most keys with half of the others, or read most groups for each. */
static void check_forged(const struct kind *kind)
{
    for (size_t slots = FEW_SLOTS; slots <= at_most(MOST_SLOTS); slots *= 32) {
        size_t kept = buffer_count();
        struct forged table = kind->forge(slots);

        in_case(kind->name, slots);
        check_in_time(&table, BOUND, ODHT_SEARCH_TOO_LONG);
        drop_buffers_since(kept);
    }
}

static void forged_tables_are_rejected_in_time(void)
{
    for (size_t index = 0; index < FORGED_KINDS; index++)
        check_forged(&kinds[index]);
}

/* The longest search is exactly within the bound, and keys are compared with hundreds of others. */
static void forged_tables_up_to_the_bound(void)
{
    for (size_t slots = FEW_SLOTS; slots <= at_most(MANY_SLOTS); slots *= 4) {
        struct forged table = forge_up_to(slots, BOUND);

        in_case("slots", slots);
        check_in_time(&table, BOUND, ODHT_OK);
        check_in_time(&table, BOUND - 1, ODHT_SEARCH_TOO_LONG);
    }
}

/* The generator splitmix64: other numbers are mixed to others. */
static uint64_t mixed(uint64_t number)
{
    number = (number ^ number >> 30) * UINT64_C(0xbf58476d1ce4e5b9);
    number = (number ^ number >> 27) * UINT64_C(0x94d049bb133111eb);
    return number ^ number >> 31;
}

/* As many random keys as so many slots take. */
static void check_random(size_t slots, uint8_t percent)
{
    const struct shape numbers = { 8, 4, FX };
    size_t items = slots * (size_t)factor_of_percent(percent) / 65536;
    size_t len = image_len(numbers, slots);
    uint8_t *bytes = bytes_of(len);
    uint64_t *keys = numbers_of(items * sizeof *keys);
    uint32_t *values = numbers_of(items * sizeof *values);
    size_t *accepted = SIZES(0);

    in_case("percent and slots", 100 * slots + percent);
    for (uint64_t index = 0; index < items; index++)
        keys[index] = mixed((index + 1) * UINT64_C(0x9e3779b97f4a7c15) + percent);
    STATUS(odht_u64_u32_init(bytes, len, items, percent), ODHT_OK);
    STATUS(odht_u64_u32_insert_all(bytes, len, keys, items, values, items, accepted), ODHT_OK);
    STATUS(odht_u64_u32_check_within(bytes, len, ODHT_DEFAULT_GROUPS), ODHT_OK);
    STATUS(odht_u64_u32_check_within(bytes, len, 1), ODHT_SEARCH_TOO_LONG);
}

/* From 10^3 slots to 10^6, half full, and nearly full. */
static void random_tables_keep_the_default(void)
{
    static const uint8_t percents[] = { 50, 87, 95 };

    for (size_t slots = FEW_SLOTS; slots <= at_most(MOST_SLOTS); slots *= 32)
        for (size_t index = 0; index < sizeof percents; index++) {
            size_t kept = buffer_count();

            check_random(slots, percents[index]);
            drop_buffers_since(kept);
        }
}

const struct test bound_tests[] = {
    TEST(keys_of_one_hash),
    TEST(forged_tables_are_valid),
    TEST(forged_tables_are_rejected_in_time),
    TEST(forged_tables_up_to_the_bound),
    TEST(random_tables_keep_the_default),
    END_OF_TESTS,
};
