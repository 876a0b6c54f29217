/* The whole check of tables worked out by hand, unchanged and with changes that opening does not find. */
#include <stdint.h>

#include "buffers.h"
#include "odht.h"
#include "subjects.h"
#include "tables.h"

/* Changes of a table, and what the whole check then returns. */
struct row {
    struct change changes[CHANGES];
    uint32_t expected;
};

static void changed_tables_of_numbers(void)
{
    static const struct row rows[] = {
        { { END_OF_CHANGES }, ODHT_OK },
        /* the load factor is 654 */
        { { { 28, 0x8e }, { 29, 2 }, END_OF_CHANGES }, ODHT_LOAD_FACTOR_TOO_SMALL },
        { { { 30, 1 }, END_OF_CHANGES }, ODHT_NON_ZERO_PADDING },
        /* slot 10 is free */
        { { { 234, 128 }, { 250, 128 }, END_OF_CHANGES }, ODHT_BAD_FREE_CONTROL },
        /* that of slot 5 */
        { { { 245, 255 }, END_OF_CHANGES }, ODHT_MIRROR_MISMATCH },
        { { { 8, 4 }, END_OF_CHANGES }, ODHT_WRONG_ITEM_COUNT },
        /* the load factor is 655, and 16 * 655 is below 65536 */
        { { { 28, 0x8f }, { 29, 2 }, END_OF_CHANGES }, ODHT_TOO_MANY_ITEMS },
        /* 5 to 6 is in slot 10, and slot 9 is free */
        { { { 140, 0 }, { 148, 0 }, { 233, 255 }, { 249, 255 }, { 152, 5 }, { 160, 6 },
            { 234, 0x61 }, { 250, 0x61 }, END_OF_CHANGES }, ODHT_UNREACHABLE },
        /* 5 to 6 is in slots 9 and 10, and there are 4 items */
        { { { 152, 5 }, { 160, 6 }, { 234, 0x61 }, { 250, 0x61 }, { 8, 4 }, END_OF_CHANGES },
          ODHT_UNREACHABLE },
    };

    for (size_t row = 0; row < sizeof rows / sizeof rows[0]; row++) {
        uint8_t *bytes = number_table();

        in_case("row", row);
        change(bytes, rows[row].changes);
        STATUS(odht_u64_u32_open(bytes, 256), ODHT_OK);
        STATUS(odht_u64_u32_check(bytes, 256), rows[row].expected);
    }
}

static void changed_tables_of_bytes(void)
{
    static const struct row rows[] = {
        { { END_OF_CHANGES }, ODHT_OK },
        /* the load factor is 654 */
        { { { 28, 0x8e }, { 29, 2 }, END_OF_CHANGES }, ODHT_LOAD_FACTOR_TOO_SMALL },
        { { { 31, 1 }, END_OF_CHANGES }, ODHT_NON_ZERO_PADDING },
        /* slot 0 is free */
        { { { 352, 254 }, { 368, 254 }, END_OF_CHANGES }, ODHT_BAD_FREE_CONTROL },
        /* that of slot 15 */
        { { { 383, 0 }, END_OF_CHANGES }, ODHT_MIRROR_MISMATCH },
        { { { 8, 1 }, END_OF_CHANGES }, ODHT_WRONG_ITEM_COUNT },
        /* the load factor is 655, and 16 * 655 is below 65536 */
        { { { 28, 0x8f }, { 29, 2 }, END_OF_CHANGES }, ODHT_TOO_MANY_ITEMS },
        /* the hash of the key in slot 7 is 0x07070708, so slot 8 is its home */
        { { { 184, 8 }, END_OF_CHANGES }, ODHT_UNREACHABLE },
    };

    for (size_t row = 0; row < sizeof rows / sizeof rows[0]; row++) {
        uint8_t *bytes = byte_table();

        in_case("row", row);
        change(bytes, rows[row].changes);
        STATUS(odht_b16_u32_open(bytes, 384), ODHT_OK);
        STATUS(odht_b16_u32_check(bytes, 384), rows[row].expected);
    }
}

/* 16 slots at 87 percent with the pair of 1 and 2 in slot 5, and one byte of it changed. */
static void one_changed_byte_of_a_table_from_u32(void)
{
    static const struct {
        struct change change;
        uint32_t expected;
    } rows[] = {
        { { 8, 1 }, ODHT_OK },
        { { 16, 17 }, ODHT_SLOT_COUNT_NOT_POWER_OF_TWO },
        { { 72, 3 }, ODHT_CONTROL_MISMATCH },
        { { 29, 1 }, ODHT_LOAD_FACTOR_TOO_SMALL },
        { { 30, 1 }, ODHT_NON_ZERO_PADDING },
        { { 159, 1 }, ODHT_NON_ZERO_EMPTY },
        { { 175, 128 }, ODHT_BAD_FREE_CONTROL },
        { { 191, 0 }, ODHT_MIRROR_MISMATCH },
        { { 8, 2 }, ODHT_WRONG_ITEM_COUNT },
        { { 29, 3 }, ODHT_TOO_MANY_ITEMS },
        { { 72, 158 }, ODHT_UNREACHABLE },
    };

    for (size_t row = 0; row < sizeof rows / sizeof rows[0]; row++) {
        uint8_t *bytes = bytes_of(192);

        in_case("row", row);
        STATUS(odht_u32_u32_init(bytes, 192, 13, 87), ODHT_OK);
        STATUS(odht_u32_u32_insert(bytes, 192, 1, 2, NULL), ODHT_OK);
        bytes[rows[row].change.at] = rows[row].change.byte;
        STATUS(odht_u32_u32_check(bytes, 192), rows[row].expected);
    }
}

const struct test check_tests[] = {
    TEST(one_changed_byte_of_a_table_from_u32),
    TEST(changed_tables_of_numbers),
    TEST(changed_tables_of_bytes),
    END_OF_TESTS
};
