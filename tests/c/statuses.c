/* Each status of odht.h once, from a table or a call made for it. docs/FORMAT.md lists the statuses. */
#include <stdint.h>
#include <string.h>

#include "buffers.h"
#include "odht.h"
#include "requests.h"
#include "subjects.h"
#include "tables.h"

enum { LEN = 256, STATUSES = 29, UNMADE_LEN = 1392 };

/* The worked example with one byte changed. */
static uint32_t check_with(size_t at, uint8_t byte)
{
    uint8_t *bytes = number_table();

    bytes[at] = byte;
    return odht_u64_u32_check(bytes, LEN);
}

static uint32_t ok(void)
{
    return odht_u64_u32_check(number_table(), LEN);
}

static uint32_t too_short(void)
{
    return odht_u64_u32_check(copy_of(number_table(), 31), 31);
}

static uint32_t wrong_tag(void)
{
    return check_with(1, 'd');
}

static uint32_t wrong_version(void)
{
    return check_with(26, 1);
}

static uint32_t wrong_size(void)
{
    return check_with(6, 8);
}

static uint32_t slot_count_not_power_of_two(void)
{
    return check_with(16, 17);
}

static uint32_t slot_count_too_small(void)
{
    return check_with(16, 1);
}

static uint32_t wrong_length(void)
{
    return odht_u64_u32_check(copy_of(number_table(), 255), 255);
}

static uint32_t non_zero_empty(void)
{
    return check_with(43, 1);
}

static uint32_t control_mismatch(void)
{
    return check_with(92, 3);
}

static uint32_t load_factor_too_small(void)
{
    return check_with(29, 1);
}

static uint32_t non_zero_padding(void)
{
    return check_with(31, 255);
}

static uint32_t bad_free_control(void)
{
    return check_with(234, 254);
}

static uint32_t mirror_mismatch(void)
{
    return check_with(255, 255);
}

static uint32_t wrong_item_count(void)
{
    return check_with(8, 2);
}

/* The factor is 0x0332, which is 818: 16 slots take 16 * 818 / 65536 items, none. */
static uint32_t too_many_items(void)
{
    return check_with(29, 3);
}

/* The key 158 has the tag of 1 and not its home. */
static uint32_t unreachable(void)
{
    return check_with(92, 158);
}

static uint32_t init_length(void)
{
    return odht_u64_u32_init(bytes_of(LEN + 1), LEN + 1, 3, 95);
}

/* 16 slots take 2 items at 13 percent. */
static uint32_t full(void)
{
    uint8_t *bytes = bytes_of(LEN);
    uint32_t former = 0;

    STATUS(odht_u64_u32_init(bytes, LEN, 2, 13), ODHT_OK);
    STATUS(odht_u64_u32_insert(bytes, LEN, 1, 1, &former), ODHT_OK);
    STATUS(odht_u64_u32_insert(bytes, LEN, 2, 2, &former), ODHT_OK);
    return odht_u64_u32_insert(bytes, LEN, 3, 3, &former);
}

static uint32_t memory(void)
{
    refuse_requests();
    return odht_u64_u32_build_growing(U64S(1), 1, U32S(1), 1, bytes_of(LEN), LEN, SIZES(0));
}

static uint32_t capacity(void)
{
    return odht_u64_u32_bytes_needed((size_t)1 << 63, 100, SIZES(0));
}

/* No search of a group is allowed. */
static uint32_t search_too_long(void)
{
    return odht_u64_u32_check_within(number_table(), LEN, 0);
}

static uint32_t absent(void)
{
    return odht_u64_u32_get(number_table(), LEN, 7, U32S(0));
}

static uint32_t replaced(void)
{
    return odht_u64_u32_insert(number_table(), LEN, 3, 5, U32S(0));
}

static uint32_t bad_percent(void)
{
    return odht_u64_u32_bytes_needed(3, 101, SIZES(0));
}

static uint32_t bad_lengths(void)
{
    return odht_u64_u32_insert_all(number_table(), LEN, U64S(1, 3), 2, U32S(1), 1, SIZES(0));
}

static uint32_t too_small(void)
{
    return odht_u64_u32_walk(number_table(), LEN, SIZES(0), U64S(0, 0), 2, U32S(0, 0), 2,
                             SIZES(0));
}

/* The keys 1 and 0 in slots 0 and 1, and all others in their homes: docs/FORMAT.md, "Valid bytes". */
static uint32_t unmade(void)
{
    uint8_t *bytes = bytes_of(UNMADE_LEN);
    size_t *slots = numbers_of(48 * sizeof *slots);

    STATUS(odht_b16_u32_init(bytes, UNMADE_LEN, 48, 87), ODHT_OK);
    bytes[8] = 48;
    for (uint8_t slot = 0; slot < 64; slot++) {
        if (slot < 33 || slot > 48) {
            bytes[32 + 20 * slot + 12] = slot < 2 ? 1 - slot : slot;
            bytes[1312 + slot] = 0;
        }
    }
    memset(bytes + 1376, 0, 16);
    return odht_b16_u32_insert_order(bytes, UNMADE_LEN, slots, 48);
}

static uint32_t bad_layout(void)
{
    odht_layout layout = { 3, 4, ODHT_HASH_UN };

    return odht_any_check(&layout, number_table(), LEN);
}

/* A number, and the table or call that is made for it. */
static const struct row {
    uint32_t status;
    uint32_t (*reach)(void);
} rows[STATUSES] = {
    { 0, ok }, { 1, too_short }, { 2, wrong_tag }, { 3, wrong_version }, { 4, wrong_size },
    { 5, slot_count_not_power_of_two }, { 6, slot_count_too_small }, { 7, wrong_length },
    { 8, non_zero_empty }, { 9, control_mismatch }, { 10, load_factor_too_small },
    { 11, non_zero_padding }, { 12, bad_free_control }, { 13, mirror_mismatch },
    { 14, wrong_item_count }, { 15, too_many_items }, { 16, unreachable }, { 17, init_length },
    { 18, full }, { 19, memory }, { 20, capacity }, { 21, search_too_long }, { 32, absent },
    { 33, replaced }, { 34, bad_percent }, { 35, bad_lengths }, { 36, too_small }, { 37, unmade },
    { 38, bad_layout },
};

static void each_status_is_reached(void)
{
    for (size_t row = 0; row < STATUSES; row++) {
        in_case("row", row);
        STATUS(rows[row].reach(), rows[row].status);
    }
}

/* Whether a row has this number. */
static bool is_status(uint32_t number)
{
    for (size_t row = 0; row < STATUSES; row++)
        if (rows[row].status == number)
            return true;
    return false;
}

/* No number but those of the rows has a name. */
static void there_are_no_other_statuses(void)
{
    for (uint32_t number = 0; number < 300; number++) {
        bool is_named = strcmp(odht_status_name(number), "unknown status") != 0;
        in_case("number", number);
        EQUAL(is_named, is_status(number));
    }
}

const struct test status_tests[] = {
    TEST(each_status_is_reached),
    TEST(there_are_no_other_statuses),
    END_OF_TESTS
};
