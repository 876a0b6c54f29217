/*
 * The whole check, compared with the second reading of the bytes: on every change of one byte of a table, and on
 * tables with some changed bytes. A program outside the library counted how often each error comes.
 */
#include <stdint.h>
#include <string.h>

#include "buffers.h"
#include "changed.h"
#include "counts.h"
#include "subjects.h"
#include "tables.h"

enum { LEN = 256 };

/* So many groups are a bound; how many tables there are whose searches are longer than one. */
enum { BOUNDS = 2 };
static size_t longer[BOUNDS + 1];

/* Asserts that the whole check with a bound returns the error of the second reading, where it is this without one. */
static void check_within(const struct calls *calls, const struct reading *table, uint32_t whole,
                         size_t groups)
{
    uint32_t expected = within_error(table, whole, groups);
    size_t slot = 0;

    STATUS(calls->check_within(table->bytes, table->len, groups), expected);
    STATUS(calls->check_within_at(table->bytes, table->len, groups, &slot), expected);
    EQUAL(slot, error_slot(table, expected, groups));
    longer[groups] += expected == ODHT_SEARCH_TOO_LONG;
}

/* Asserts that opening and whole check say in which slot the errors of the second reading are. */
static void check_places(const struct calls *calls, const struct reading *table, uint32_t whole)
{
    uint32_t opening = opening_error(table);
    size_t slot = 0;

    STATUS(calls->open_at(table->bytes, table->len, &slot), opening);
    EQUAL(slot, error_slot(table, opening, 0));
    STATUS(calls->check_at(table->bytes, table->len, &slot), whole);
    EQUAL(slot, error_slot(table, whole, 0));
}

/* Asserts that header, opening and whole check return the errors of the second reading, and counts the last. */
static void check_errors(const struct calls *calls, const uint8_t *bytes, size_t len,
                         struct counts *counts)
{
    struct reading table = { bytes, len, calls->shape };
    uint32_t expected = whole_error(&table);
    size_t count = 0;

    STATUS(calls->check(bytes, len), expected);
    check_places(calls, &table, expected);
    for (size_t groups = 1; groups <= BOUNDS; groups++)
        check_within(calls, &table, expected, groups);
    STATUS(calls->open(bytes, len), opening_error(&table));
    STATUS(calls->len(bytes, len, &count), header_error(&table));
    count_status(counts, expected);
}

/* Checks the bytes with each other value at this offset. */
static void check_each_value(uint8_t *bytes, size_t at, struct counts *counts)
{
    uint8_t kept = bytes[at];

    in_case("changes of byte", at);
    for (unsigned difference = 1; difference < 256; difference++) {
        bytes[at] = (uint8_t)(kept + difference);
        check_errors(u64_u32_calls, bytes, LEN, counts);
    }
    bytes[at] = kept;
}

static void each_change_of_one_byte(void)
{
    static const size_t expected[KINDS] = {
        6596, 0, 1020, 1020, 1020, 2033, 4, 3, 40164, 5076, 3, 510, 1651, 4093, 2040, 45, 3
    };
    struct counts counts = { { 0 } };
    uint8_t *bytes = number_table();

    check_errors(u64_u32_calls, bytes, LEN, &counts);
    for (size_t at = 0; at < LEN; at++)
        check_each_value(bytes, at, &counts);
    check_counts(&counts, expected);
}

/* An offset: in the header, in the entries, among the control bytes, in the mirror or anywhere. */
static size_t random_offset(const struct changed *changed, struct random *random)
{
    size_t entry = changed->calls->shape.key + changed->calls->shape.value;
    size_t controls = 32 + changed->slots * entry;

    switch (random_below(random, 8)) {
    case 0: return random_below(random, 32);
    case 1: return 8;
    case 2: return 16;
    case 3: return random_below(random, 4) + 28;
    case 4: return random_below(random, changed->slots * entry) + 32;
    case 5: return controls + random_below(random, changed->slots);
    case 6: return controls + changed->slots + random_below(random, 16);
    default: return random_below(random, changed->len);
    }
}

/* A byte that may mean something there. */
static uint8_t random_value(const struct changed *changed, struct random *random)
{
    switch (random_below(random, 5)) {
    case 0: return 255;
    case 1: return random_byte(random) % 16;
    case 2: return (uint8_t)(1 << random_byte(random) % 8);
    case 3: return changed->bytes[random_below(random, changed->len)];
    default: return random_byte(random);
    }
}

/* Changes one byte. */
static void change_byte(struct changed *changed, struct random *random)
{
    size_t at = random_offset(changed, random);

    write_byte(changed, at, random_value(changed, random));
}

/* Gives a slot the control byte that its key needs, in the mirror too. */
static void fill_slot(struct changed *changed, size_t slot)
{
    struct reading table = reading_of(changed);
    uint8_t tag = tag_of(table.shape, key_in(&table, slot));
    size_t controls = entry_at(&table, changed->slots);

    write_byte(changed, controls + slot, tag);
    if (slot < 16)
        write_byte(changed, controls + changed->slots + slot, tag);
}

/* Changes a byte of the key in a slot. */
static void change_key(struct changed *changed, struct random *random)
{
    struct reading table = reading_of(changed);
    size_t slot = random_below(random, changed->slots);
    size_t at = random_below(random, table.shape.key) + entry_at(&table, slot);

    write_byte(changed, at, random_byte(random));
    fill_slot(changed, slot);
}

/* Copies the key in a slot to the next. */
static void copy_key(struct changed *changed, struct random *random)
{
    struct reading table = reading_of(changed);
    size_t slot = random_below(random, changed->slots - 1);

    memcpy(changed->bytes + entry_at(&table, slot + 1), key_in(&table, slot), table.shape.key);
    fill_slot(changed, slot + 1);
}

/* Changes up to eight bytes. */
static void change_table(struct changed *changed, struct random *random)
{
    size_t way = random_below(random, 4);
    size_t most = way == 1 ? 3 : 6;
    size_t changes = way < 2 ? 0 : 1;

    if (way == 0)
        change_key(changed, random);
    if (way == 1)
        copy_key(changed, random);
    changes += random_below(random, random_below(random, most) + 1);
    for (size_t index = 0; index < changes; index++)
        change_byte(changed, random);
}

/* A table of 16 or 64 slots, by no more inserts than its maximum item count. */
static struct changed made(const struct calls *calls, struct random *random)
{
    bool is_large = random_below(random, 2) == 0;
    size_t slots = is_large ? 64 : 16;
    size_t maximum = is_large ? 55 : 13;
    size_t inserts = random_below(random, maximum + 1);

    return made_table(calls, slots, maximum, inserts, random);
}

/* Checks so many changed tables of a shape, and asserts how often each error comes, where that was counted. */
static void check_changed(const struct calls *calls, size_t tables, const size_t *expected)
{
    struct counts counts = { { 0 } };
    struct random random = { 1 };

    memset(longer, 0, sizeof longer);
    for (size_t table = 0; table < tables; table++) {
        size_t kept = buffer_count();
        struct changed changed = made(calls, &random);

        in_case(calls->name, table);
        change_table(&changed, &random);
        check_errors(calls, changed.bytes, changed.len, &counts);
        drop_buffers_since(kept);
    }
    if (expected[ODHT_OK] != 0)
        check_counts(&counts, expected);
    for (size_t groups = 1; groups <= BOUNDS; groups++)
        HOLDS(longer[groups] > 0);
}

/* Rows of some shapes. From 32-bit numbers, and from 16 bytes to 32-bit numbers, there are 7,500 tables. */
static void changed_tables_in_each_shape(void)
{
    static const size_t expected[SHAPES][KINDS] = {
        [AT_u32_u32] =
            { 545, 0, 221, 164, 200, 1174, 162, 85, 820, 690, 42, 429, 57, 482, 1768, 36, 625 },
        [AT_u64_u32] =
            { 166, 0, 52, 42, 51, 299, 47, 19, 214, 185, 8, 91, 15, 144, 486, 8, 173 },
        [AT_u64_u64] =
            { 169, 0, 51, 43, 50, 294, 46, 20, 217, 179, 11, 91, 12, 150, 491, 7, 169 },
        [AT_b16_u32] =
            { 748, 0, 209, 147, 192, 1159, 160, 88, 871, 454, 58, 406, 55, 508, 1820, 34, 591 },
        [AT_b16_u64] =
            { 208, 0, 50, 38, 48, 294, 47, 20, 221, 137, 13, 88, 12, 150, 496, 8, 170 },
        [AT_b20_u64] =
            { 204, 0, 49, 36, 48, 295, 47, 20, 229, 130, 14, 91, 13, 146, 494, 8, 176 },
        [AT_b32_u64] =
            { 212, 0, 49, 38, 48, 294, 47, 20, 225, 127, 15, 89, 13, 145, 498, 7, 173 },
        [AT_b16] =
            { 200, 0, 51, 40, 50, 294, 46, 21, 223, 140, 12, 87, 14, 150, 493, 8, 171 },
        [AT_b32] =
            { 215, 0, 49, 36, 49, 295, 47, 20, 217, 134, 13, 88, 13, 146, 501, 8, 169 },
    };

    for (size_t index = 0; index < SHAPES; index++) {
        bool is_long = index == AT_u32_u32 || index == AT_b16_u32;

        check_changed(&all_shapes[index], is_long ? 7500 : 2000, expected[index]);
    }
}

const struct test whole_check_tests[] = {
    TEST(each_change_of_one_byte),
    TEST(changed_tables_in_each_shape),
    END_OF_TESTS
};
