/*
 * The slots of errors that opening and checking return. They were worked out by hand for the worked example of
 * docs/FORMAT.md, whose keys are in slots 5, 9 and 15. whole_checks.c compares changed tables of each shape with the
 * second reading.
 */
#include <stdint.h>

#include "buffers.h"
#include "odht.h"
#include "subjects.h"
#include "tables.h"

enum { LEN = 256, MOST_CHANGES = 3 };

/* Up to three bytes that are changed (at offset 0 there are none more), and what opening and the whole check say. */
static const struct row {
    struct { size_t at; uint8_t byte; } changes[MOST_CHANGES];
    uint32_t opening;
    size_t opening_slot;
    uint32_t check;
    size_t check_slot;
} rows[] = {
    { { { 0, 0 } }, ODHT_OK, ODHT_NO_SLOT, ODHT_OK, ODHT_NO_SLOT },
    { { { 1, 'd' } }, ODHT_WRONG_TAG, ODHT_NO_SLOT, ODHT_WRONG_TAG, ODHT_NO_SLOT },
    { { { 16, 17 } }, ODHT_SLOT_COUNT_NOT_POWER_OF_TWO, ODHT_NO_SLOT,
      ODHT_SLOT_COUNT_NOT_POWER_OF_TWO, ODHT_NO_SLOT },
    { { { 16, 32 } }, ODHT_WRONG_LENGTH, ODHT_NO_SLOT, ODHT_WRONG_LENGTH, ODHT_NO_SLOT },
    /* bytes of the entries of the free slots 0, 4 and 11, of which opening does not read the last */
    { { { 32, 7 } }, ODHT_NON_ZERO_EMPTY, 0, ODHT_NON_ZERO_EMPTY, 0 },
    { { { 91, 1 } }, ODHT_NON_ZERO_EMPTY, 4, ODHT_NON_ZERO_EMPTY, 4 },
    { { { 164, 1 } }, ODHT_OK, ODHT_NO_SLOT, ODHT_NON_ZERO_EMPTY, 11 },
    /* of two the first */
    { { { 91, 1 }, { 44, 1 } }, ODHT_NON_ZERO_EMPTY, 1, ODHT_NON_ZERO_EMPTY, 1 },
    /* the control bytes of the keys in slots 5, 9 and 15 */
    { { { 229, 0x14 } }, ODHT_CONTROL_MISMATCH, 5, ODHT_CONTROL_MISMATCH, 5 },
    { { { 233, 0 } }, ODHT_CONTROL_MISMATCH, 9, ODHT_CONTROL_MISMATCH, 9 },
    { { { 239, 0x3b } }, ODHT_OK, ODHT_NO_SLOT, ODHT_CONTROL_MISMATCH, 15 },
    /* opening passes a free control byte in slot 3, so the whole check names the entry of slot 7 first */
    { { { 227, 200 } }, ODHT_OK, ODHT_NO_SLOT, ODHT_BAD_FREE_CONTROL, 3 },
    { { { 227, 200 }, { 116, 1 } }, ODHT_NON_ZERO_EMPTY, 7, ODHT_NON_ZERO_EMPTY, 7 },
    { { { 227, 200 }, { 164, 1 } }, ODHT_OK, ODHT_NO_SLOT, ODHT_BAD_FREE_CONTROL, 3 },
    { { { 29, 2 } }, ODHT_OK, ODHT_NO_SLOT, ODHT_LOAD_FACTOR_TOO_SMALL, ODHT_NO_SLOT },
    { { { 30, 1 } }, ODHT_OK, ODHT_NO_SLOT, ODHT_NON_ZERO_PADDING, ODHT_NO_SLOT },
    { { { 245, 255 } }, ODHT_OK, ODHT_NO_SLOT, ODHT_MIRROR_MISMATCH, 5 },
    { { { 255, 0 } }, ODHT_OK, ODHT_NO_SLOT, ODHT_MIRROR_MISMATCH, 15 },
    { { { 8, 4 } }, ODHT_OK, ODHT_NO_SLOT, ODHT_WRONG_ITEM_COUNT, ODHT_NO_SLOT },
    /* 5 percent of 16 slots are none */
    { { { 29, 13 } }, ODHT_OK, ODHT_NO_SLOT, ODHT_TOO_MANY_ITEMS, ODHT_NO_SLOT },
    /* the key 1 in slot 9 too, with its tag: the search for it ends at slot 5 */
    { { { 140, 1 }, { 233, 0x13 }, { 249, 0x13 } }, ODHT_OK, ODHT_NO_SLOT, ODHT_UNREACHABLE, 9 },
};

static const uint8_t *changed_table(const struct row *row)
{
    uint8_t *bytes = number_table();

    for (size_t index = 0; index < MOST_CHANGES && row->changes[index].at != 0; index++)
        bytes[row->changes[index].at] = row->changes[index].byte;
    return bytes;
}

static void slots_of_errors(void)
{
    for (size_t index = 0; index < sizeof rows / sizeof rows[0]; index++) {
        const uint8_t *bytes = changed_table(&rows[index]);
        size_t *slots = SIZES(77, 77, 77);

        in_case("row", index);
        STATUS(odht_u64_u32_open_at(bytes, LEN, slots), rows[index].opening);
        EQUAL(slots[0], rows[index].opening_slot);
        STATUS(odht_u64_u32_check_at(bytes, LEN, slots + 1), rows[index].check);
        EQUAL(slots[1], rows[index].check_slot);
        STATUS(odht_u64_u32_check_within_at(bytes, LEN, 1, slots + 2), rows[index].check);
        EQUAL(slots[2], rows[index].check_slot);
    }
}

/* No search of a group is allowed, and one begins in slot 0 already; an error that comes before this is told. */
static void slots_of_long_searches(void)
{
    uint8_t *bytes = number_table();
    size_t *slot = SIZES(77);

    STATUS(odht_u64_u32_check_within_at(bytes, LEN, 0, slot), ODHT_SEARCH_TOO_LONG);
    EQUAL(*slot, 0);
    bytes[244] = 1;
    STATUS(odht_u64_u32_check_within_at(bytes, LEN, 0, slot), ODHT_MIRROR_MISMATCH);
    EQUAL(*slot, 4);
}

/* Too few bytes for a header are in no slot. */
static void slots_of_no_table(void)
{
    size_t *slots = SIZES(77, 77, 77);

    STATUS(odht_u64_u32_open_at(bytes_of(0), 0, slots), ODHT_TOO_SHORT);
    STATUS(odht_u64_u32_check_at(bytes_of(31), 31, slots + 1), ODHT_TOO_SHORT);
    STATUS(odht_u64_u32_check_within_at(bytes_of(1), 1, 1, slots + 2), ODHT_TOO_SHORT);
    for (size_t index = 0; index < 3; index++)
        EQUAL(slots[index], ODHT_NO_SLOT);
}

const struct test place_tests[] = {
    TEST(slots_of_errors),
    TEST(slots_of_long_searches),
    TEST(slots_of_no_table),
    END_OF_TESTS
};
