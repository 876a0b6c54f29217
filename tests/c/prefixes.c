/* Tables inside longer bytes: lengths from headers, cut bytes, and wrong slot counts. */
#include <stdint.h>
#include <string.h>

#include "buffers.h"
#include "calls.h"
#include "keys.h"
#include "odht.h"
#include "reading.h"
#include "subjects.h"
#include "tables.h"

enum { UNWRITTEN = 77, HEADER = 32, SLOT_COUNT = 16 };

/* Asserts the answer of a call, and what it leaves in the length. */
static void check_front(const struct calls *calls, const uint8_t *bytes, size_t len,
                        uint32_t expected, size_t expected_len)
{
    size_t found = UNWRITTEN;

    STATUS(calls->table_len(bytes, len, &found), expected);
    EQUAL(found, expected_len);
}

/* A table for so many items with one pair in it. Returns its length. */
static size_t make_table(const struct calls *calls, size_t items, uint8_t **bytes)
{
    uint8_t *key = numbers_of(calls->shape.key);
    uint8_t *value = numbers_of(calls->shape.value);
    size_t len = 0;

    write_key(calls->shape, 5, key);
    write_value(calls->shape, 9, value);
    STATUS(calls->bytes_needed(items, 87, &len), ODHT_OK);
    *bytes = bytes_of(len);
    STATUS(calls->init(*bytes, len, items, 87), ODHT_OK);
    STATUS(calls->insert(*bytes, len, key, value, NULL), ODHT_OK);
    return len;
}

/* The table is found at this offset, whatever is before and behind it, and its pair is found in it. */
static void check_at(const struct calls *calls, const uint8_t *table, size_t len, size_t offset,
                     size_t behind)
{
    uint8_t *file = bytes_of(offset + len + behind);
    uint8_t *key = numbers_of(calls->shape.key);
    size_t found = UNWRITTEN;

    memset(file, 0xff, offset + len + behind);
    memcpy(file + offset, table, len);
    freeze(file);
    check_front(calls, file + offset, len + behind, ODHT_OK, len);
    write_key(calls->shape, 5, key);
    STATUS(calls->table_len(file + offset, len + behind, &found), ODHT_OK);
    STATUS(calls->check(file + offset, found), ODHT_OK);
    STATUS(calls->get(file + offset, found, key, NULL), ODHT_OK);
}

static void tables_inside_longer_bytes(void)
{
    static const size_t offsets[] = { 0, 1, 7, 16, 33 };
    static const size_t behind[] = { 0, 1, 15, 300 };

    for (size_t shape = 0; shape < SHAPES; shape++) {
        for (size_t items = 1; items <= 100; items *= 10) {
            size_t kept = buffer_count();
            uint8_t *table;
            size_t len = make_table(&all_shapes[shape], items, &table);

            in_case(all_shapes[shape].name, items);
            for (size_t row = 0; row < sizeof offsets / sizeof *offsets; row++)
                for (size_t more = 0; more < sizeof behind / sizeof *behind; more++)
                    check_at(&all_shapes[shape], table, len, offsets[row], behind[more]);
            drop_buffers_since(kept);
        }
    }
}

/* Each length below that of the table. What is cut off is not read: it is a page that faults. */
static void each_length_below_the_table(void)
{
    for (size_t shape = 0; shape < SHAPES; shape++) {
        uint8_t *table;
        size_t len = make_table(&all_shapes[shape], 1, &table);

        for (size_t cut = 0; cut < len; cut++) {
            size_t kept = buffer_count();
            uint32_t expected = cut < HEADER ? ODHT_TOO_SHORT : ODHT_WRONG_LENGTH;

            in_case(all_shapes[shape].name, cut);
            check_front(&all_shapes[shape], copy_of(table, cut), cut, expected, UNWRITTEN);
            drop_buffers_since(kept);
        }
    }
}

/* Every power of two, and one less and one more, as the slot count: by a second reading of the bytes. */
static void forged_slot_counts(void)
{
    for (size_t shape = 0; shape < SHAPES; shape++) {
        uint8_t *table;
        size_t len = make_table(&all_shapes[shape], 100, &table);
        struct reading reading = { table, len, all_shapes[shape].shape };

        for (unsigned forged = 0; forged < 3 * 64; forged++) {
            uint64_t slots = (UINT64_C(1) << forged / 3) + forged % 3 - 1;
            uint32_t expected;

            memcpy(table + SLOT_COUNT, &slots, sizeof slots);
            expected = front_error(&reading);
            in_case(all_shapes[shape].name, forged);
            check_front(&all_shapes[shape], table, len, expected,
                        expected == ODHT_OK ? image_len(reading.shape, slots) : UNWRITTEN);
        }
    }
}

/* The sizes of keys and values are those of the shape: no other shape finds a length. */
static void tables_of_other_sizes(void)
{
    for (size_t made = 0; made < SHAPES; made++) {
        uint8_t *table;
        size_t len = make_table(&all_shapes[made], 1, &table);

        for (size_t read = 0; read < SHAPES; read++) {
            bool is_same = all_shapes[made].shape.key == all_shapes[read].shape.key
                && all_shapes[made].shape.value == all_shapes[read].shape.value;

            in_case(all_shapes[read].name, made);
            check_front(&all_shapes[read], table, len, is_same ? ODHT_OK : ODHT_WRONG_SIZE,
                        is_same ? len : UNWRITTEN);
        }
    }
}

/* The calls of docs/USING.md, "A table inside a larger file": the table of 1 to 2, 5 to 6 and 3 to 4 behind a mark. */
static void a_table_behind_a_mark(void)
{
    size_t file_len = 4 + 256 + 9;
    uint8_t *file = bytes_of(file_len);
    const uint8_t *rest = file + 4;
    size_t len = 0;
    uint32_t value = 0;

    memcpy(file + 4, number_table(), 256);
    if (odht_u64_u32_table_len(rest, file_len - 4, &len) == ODHT_OK)
        STATUS(odht_u64_u32_get(rest, len, 3, &value), ODHT_OK);
    EQUAL(value, 4);
    EQUAL(len, 256);
    ALL_BYTES(rest + len, file_len - 4 - len, FILL);
}

const struct test prefix_tests[] = {
    TEST(tables_inside_longer_bytes),
    TEST(each_length_below_the_table),
    TEST(forged_slot_counts),
    TEST(tables_of_other_sizes),
    TEST(a_table_behind_a_mark),
    END_OF_TESTS
};
