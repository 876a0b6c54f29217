/* Dynamic tables: calls with many keys, walks, and the numbers in the header. */
#include <stdint.h>
#include <string.h>

#include "buffers.h"
#include "calls.h"
#include "keys.h"
#include "layouts.h"
#include "odht.h"
#include "placing.h"
#include "random.h"
#include "reading.h"
#include "subjects.h"
#include "tables.h"

enum { ROOM = 3, NUMBERS_LEN = 256 };

static const odht_layout numbers = { 8, 4, ODHT_HASH_FX };

/* Looks up the keys of the table and as many random ones, beside a search slot by slot. */
static void look_up_beside(const struct reading *table, const uint8_t *keys, struct random *random)
{
    struct shape shape = table->shape;
    odht_layout layout = layout_of(shape);
    size_t count = 2 * ITEMS;
    uint8_t *sought = bytes_of(count * shape.key);
    uint8_t *values = bytes_of(count * shape.value);
    uint8_t *expected = bytes_of(count * shape.value);
    uint8_t *found = bytes_of(count);

    random_bytes(random, sought, count * shape.key);
    memcpy(sought, keys, ITEMS * shape.key);
    STATUS(odht_any_get_all(&layout, table->bytes, table->len, count, sought, count * shape.key,
                            values, count * shape.value, found, count),
           ODHT_OK);
    for (size_t index = 0; index < count; index++) {
        size_t slot = search_end(table, sought + index * shape.key);

        EQUAL(found[index], is_occupied(table, slot));
        if (is_occupied(table, slot))
            memcpy(expected + index * shape.value, value_in(table, slot), shape.value);
    }
    SAME_BYTES(values, expected, count * shape.value);
}

/* Walks over the table, some pairs at a time, beside its slots in turn. */
static void walk_beside(const struct reading *table)
{
    struct shape shape = table->shape;
    odht_layout layout = layout_of(shape);
    uint8_t *keys = bytes_of(ROOM * shape.key);
    uint8_t *values = bytes_of(ROOM * shape.value);
    size_t *cursor = SIZES(0);
    size_t *count = SIZES(0);
    size_t left = occupied_in(table);
    size_t slot = 0;

    do {
        STATUS(odht_any_walk(&layout, table->bytes, table->len, cursor, ROOM, keys,
                             ROOM * shape.key, values, ROOM * shape.value, count),
               left > ROOM ? ODHT_TOO_SMALL : ODHT_OK);
        EQUAL(*count, left > ROOM ? ROOM : left);
        for (size_t index = 0; index < *count; index++, slot++) {
            while (!is_occupied(table, slot))
                slot++;
            SAME_BYTES(keys + index * shape.key, key_in(table, slot), shape.key);
            SAME_BYTES(values + index * shape.value, value_in(table, slot), shape.value);
        }
        left -= *count;
    } while (left > 0);
    EQUAL(*cursor, SLOTS);
}

/* The table has its length, also with other bytes behind it, and one byte less is none. */
static void length_beside(const struct reading *table)
{
    odht_layout layout = layout_of(table->shape);
    uint8_t *longer = bytes_of(table->len + 5);
    size_t *len = SIZES(0);

    memcpy(longer, table->bytes, table->len);
    STATUS(odht_any_table_len(&layout, longer, table->len + 5, len), ODHT_OK);
    EQUAL(*len, table->len);
    *len = 9;
    STATUS(odht_any_table_len(&layout, longer, table->len - 1, len), ODHT_WRONG_LENGTH);
    EQUAL(*len, 9);
}

/* The build of these pairs, in a buffer with a byte more than it needs. */
static void build_beside(struct shape shape, const uint8_t *keys, const uint8_t *values)
{
    odht_layout layout = layout_of(shape);
    size_t len = image_len(shape, SLOTS);
    uint8_t *out = bytes_of(len + 1);
    uint8_t *expected = bytes_of(len);
    size_t *needed = SIZES(0);

    place_nothing(expected, shape, SLOTS, factor_of_percent(PERCENT));
    for (size_t item = 0; item < ITEMS; item++)
        place_pair(expected, len, shape, keys + item * shape.key, values + item * shape.value);
    STATUS(odht_any_build(&layout, ITEMS, keys, ITEMS * shape.key, values, ITEMS * shape.value, PERCENT,
                          out, len - 1, needed),
           ODHT_TOO_SMALL);
    EQUAL(*needed, len);
    ALL_BYTES(out, len + 1, FILL);
    STATUS(odht_any_build(&layout, ITEMS, keys, ITEMS * shape.key, values, ITEMS * shape.value, PERCENT,
                          out, len + 1, needed),
           ODHT_OK);
    SAME_BYTES(out, expected, len);
    ALL_BYTES(out + len, 1, FILL);
    STATUS(odht_any_build(&layout, ITEMS, keys, ITEMS * shape.key, values, ITEMS * shape.value, 101,
                          out, len, needed),
           ODHT_BAD_PERCENT);
}

static void one_list(struct shape shape, struct random *random)
{
    odht_layout layout = layout_of(shape);
    size_t len = image_len(shape, SLOTS);
    uint8_t *bytes = empty_table(layout, len);
    uint8_t *expected = bytes_of(len);
    uint8_t *keys = bytes_of(ITEMS * shape.key);
    uint8_t *values = bytes_of(ITEMS * shape.value);
    struct reading table = { expected, len, shape };
    size_t *accepted = SIZES(0);

    random_bytes(random, keys, ITEMS * shape.key);
    random_bytes(random, values, ITEMS * shape.value);
    place_nothing(expected, shape, SLOTS, factor_of_percent(PERCENT));
    for (size_t item = 0; item < ITEMS; item++)
        place_pair(expected, len, shape, keys + item * shape.key, values + item * shape.value);
    STATUS(odht_any_insert_all(&layout, bytes, len, ITEMS, keys, ITEMS * shape.key, values,
                               ITEMS * shape.value, accepted),
           ODHT_OK);
    EQUAL(*accepted, ITEMS);
    SAME_BYTES(bytes, expected, len);
    look_up_beside(&table, keys, random);
    walk_beside(&table);
    length_beside(&table);
    build_beside(shape, keys, values);
}

static void lists_are_those_of_a_second_writing(void)
{
    for_lengths(one_list, 71);
}

/* The same walk, lookups and numbers by the calls of each shape. */
static void lists_are_those_of_the_shapes(void)
{
    for (size_t at = 0; at < SHAPES; at++) {
        const struct calls *calls = &all_shapes[at];
        odht_layout layout = layout_of(calls->shape);
        size_t len = image_len(calls->shape, SLOTS);
        uint8_t *bytes = empty_table(layout, len);
        size_t key = calls->shape.key;
        size_t value = calls->shape.value;
        const uint8_t *keys = counted_keys(calls->shape, ITEMS);
        const uint8_t *values = counted_values(calls->shape, ITEMS);
        size_t *accepted = SIZES(0);
        size_t *sizes = SIZES(0, 0, 0, 0);
        uint8_t *percents = BYTES(0, 0);

        in_case(calls->name, at);
        STATUS(odht_any_insert_all(&layout, bytes, len, ITEMS, keys, ITEMS * key, values,
                                   ITEMS * value, accepted),
               ODHT_OK);
        STATUS(calls->check(bytes, len), ODHT_OK);
        STATUS(calls->sizes(bytes, len, &sizes[0], &sizes[1], &percents[0]), ODHT_OK);
        STATUS(odht_any_sizes(&layout, bytes, len, &sizes[2], &sizes[3], &percents[1]), ODHT_OK);
        SAME_BYTES(sizes, sizes + 2, 2 * sizeof sizes[0]);
        EQUAL(percents[0], percents[1]);
        EQUAL(sizes[2], SLOTS);
    }
}

static void a_list_stops_where_the_table_is_full(void)
{
    uint8_t *bytes = number_table();
    uint8_t *same = number_table();
    const uint8_t *keys = BYTES(5, 0, 0, 0, 0, 0, 0, 0, 9, 0, 0, 0, 0, 0, 0, 0);
    size_t *accepted = SIZES(9);

    /* at 20 percent its sixteen slots take three items */
    change(bytes, (const struct change[]){ { 28, 0x33 }, { 29, 0x33 }, END_OF_CHANGES });
    change(same, (const struct change[]){ { 28, 0x33 }, { 29, 0x33 }, END_OF_CHANGES });
    STATUS(odht_u64_u32_insert(same, NUMBERS_LEN, 5, 0x01010101, NULL), ODHT_REPLACED);
    STATUS(odht_any_insert_all(&numbers, bytes, NUMBERS_LEN, 2, keys, 16,
                               BYTES(1, 1, 1, 1, 2, 2, 2, 2), 8, accepted),
           ODHT_FULL);
    EQUAL(*accepted, 1);
    SAME_BYTES(bytes, same, NUMBERS_LEN);
}

/* The third row's count of keys times eight passes 64 bits, and is 0 there. */
static void lists_of_other_lengths_are_rejected(void)
{
    static const size_t rows[][4] = { { 2, 15, 8, 2 }, { 2, 16, 9, 2 }, { (size_t)1 << 61, 0, 0, 0 },
                                      { 2, 17, 8, 2 }, { 3, 16, 8, 2 },  { 0, 16, 0, 0 },
                                      { 2, 16, 0, 2 } };
    uint8_t *bytes = number_table();
    const uint8_t *same = number_table();

    for (size_t row = 0; row < sizeof rows / sizeof rows[0]; row++) {
        size_t count = rows[row][0];
        uint8_t *keys = bytes_of(rows[row][1]);
        uint8_t *values = bytes_of(rows[row][2]);
        uint8_t *found = bytes_of(rows[row][3]);
        size_t *number = SIZES(9, 5);

        in_case("row", row);
        STATUS(odht_any_get_all(&numbers, bytes, NUMBERS_LEN, count, keys, rows[row][1], values,
                                rows[row][2], found, rows[row][3]),
               ODHT_BAD_LENGTHS);
        STATUS(odht_any_walk(&numbers, bytes, NUMBERS_LEN, &number[0], count, keys, rows[row][1],
                             values, rows[row][2], &number[1]),
               ODHT_BAD_LENGTHS);
        STATUS(odht_any_insert_all(&numbers, bytes, NUMBERS_LEN, count, keys, rows[row][1], values,
                                   rows[row][2], &number[1]),
               ODHT_BAD_LENGTHS);
        ALL_BYTES(keys, rows[row][1], FILL);
        ALL_BYTES(values, rows[row][2], FILL);
        ALL_BYTES(found, rows[row][3], FILL);
        EQUAL(number[0], 9);
        EQUAL(number[1], 5);
    }
    STATUS(odht_any_get_all(&numbers, bytes, NUMBERS_LEN, 1, bytes_of(8), 8, bytes_of(4), 4,
                            bytes_of(2), 2),
           ODHT_BAD_LENGTHS);
    SAME_BYTES(bytes, same, NUMBERS_LEN);
}

/* Bytes that are rejected by their header: nothing is written. */
static void lists_of_rejected_bytes_write_nothing(void)
{
    uint8_t *bytes = number_table();
    uint8_t *keys = bytes_of(8);
    uint8_t *values = bytes_of(4);
    uint8_t *found = bytes_of(1);
    size_t *number = SIZES(9, 5);

    change(bytes, (const struct change[]){ { 27, 3 }, END_OF_CHANGES });
    STATUS(odht_any_get_all(&numbers, bytes, NUMBERS_LEN, 1, keys, 8, values, 4, found, 1),
           ODHT_WRONG_VERSION);
    STATUS(odht_any_walk(&numbers, bytes, NUMBERS_LEN, &number[0], 1, keys, 8, values, 4,
                         &number[1]),
           ODHT_WRONG_VERSION);
    STATUS(odht_any_insert_all(&numbers, bytes, NUMBERS_LEN, 1, keys, 8, values, 4, &number[1]),
           ODHT_WRONG_VERSION);
    STATUS(odht_any_sizes(&numbers, bytes, NUMBERS_LEN, &number[0], &number[1], found),
           ODHT_WRONG_VERSION);
    STATUS(odht_any_table_len(&numbers, bytes, NUMBERS_LEN, &number[1]), ODHT_WRONG_VERSION);
    ALL_BYTES(keys, 8, FILL);
    ALL_BYTES(values, 4, FILL);
    ALL_BYTES(found, 1, FILL);
    EQUAL(number[0], 9);
    EQUAL(number[1], 5);
}

/* Keys and values that have no bytes: all pairs are one, however many the caller names. */
static void pairs_without_bytes_are_one(void)
{
    static const size_t counts[] = { 0, 1, 2, (size_t)1 << 62, SIZE_MAX };
    static const odht_layout nothing = { 0, 0, ODHT_HASH_FX };
    static const struct shape shape = { 0, 0, FX };
    const uint8_t *none = bytes_of(0);
    size_t len = image_len(shape, SLOTS);

    for (size_t at = 0; at < sizeof counts / sizeof counts[0]; at++) {
        uint8_t *bytes = empty_table(nothing, len);
        uint8_t *expected = bytes_of(len);
        uint8_t *out = bytes_of(len + 1);
        size_t *number = SIZES(9, 9);

        in_case("counts", at);
        place_nothing(expected, shape, SLOTS, factor_of_percent(PERCENT));
        if (counts[at] > 0)
            place_pair(expected, len, shape, none, none);
        STATUS(odht_any_insert_all(&nothing, bytes, len, counts[at], none, 0, none, 0, &number[0]), ODHT_OK);
        EQUAL(number[0], counts[at]);
        SAME_BYTES(bytes, expected, len);
        place_nothing(expected, shape, SLOTS, factor_of_percent(87));
        if (counts[at] > 0)
            place_pair(expected, len, shape, none, none);
        STATUS(odht_any_build_growing(&nothing, counts[at], none, 0, none, 0, out, len + 1, &number[1]), ODHT_OK);
        EQUAL(number[1], len);
        SAME_BYTES(out, expected, len);
        ALL_BYTES(out + len, 1, FILL);
    }
}

/* At 1 percent sixteen slots take no item. */
static void a_pair_without_bytes_is_rejected_by_a_full_table(void)
{
    static const odht_layout nothing = { 0, 0, ODHT_HASH_FX };
    static const struct shape shape = { 0, 0, FX };
    const uint8_t *none = bytes_of(0);
    size_t len = image_len(shape, SLOTS);
    uint8_t *bytes = bytes_of(len);
    uint8_t *same = bytes_of(len);
    size_t *accepted = SIZES(9);

    place_nothing(bytes, shape, SLOTS, factor_of_percent(1));
    place_nothing(same, shape, SLOTS, factor_of_percent(1));
    STATUS(odht_any_insert_all(&nothing, bytes, len, (size_t)1 << 62, none, 0, none, 0, accepted), ODHT_FULL);
    EQUAL(*accepted, 0);
    SAME_BYTES(bytes, same, len);
}

const struct test any_list_tests[] = {
    TEST(lists_are_those_of_a_second_writing),
    TEST(lists_are_those_of_the_shapes),
    TEST(a_list_stops_where_the_table_is_full),
    TEST(lists_of_other_lengths_are_rejected),
    TEST(lists_of_rejected_bytes_write_nothing),
    TEST(pairs_without_bytes_are_one),
    TEST(a_pair_without_bytes_is_rejected_by_a_full_table),
    END_OF_TESTS
};
