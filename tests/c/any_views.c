/* Opened dynamic tables, and growing builds, compared with the second writing and with the shapes. */
#include <stdint.h>
#include <string.h>

#include "buffers.h"
#include "calls.h"
#include "keys.h"
#include "layouts.h"
#include "odht.h"
#include "placing.h"
#include "random.h"
#include "reading.h"
#include "subjects.h"
#include "tables.h"

/* The length of a table of 16 slots of numbers; so many pairs take so many slots at 87 percent. */
enum { NUMBERS_LEN = 256, GROWN_ITEMS = 40, GROWN_SLOTS = 64 };

static const odht_layout numbers = { 8, 4, ODHT_HASH_FX };

/* Looks a key up in a view, beside a search slot by slot in its table. */
static void look_up_beside(const struct reading *table, const odht_view *view, const uint8_t *key)
{
    struct shape shape = table->shape;
    odht_layout layout = layout_of(shape);
    size_t slot = search_end(table, key);
    uint32_t status = is_occupied(table, slot) ? ODHT_OK : ODHT_ABSENT;
    uint8_t *value = bytes_of(shape.value);

    STATUS(odht_any_view_get(&layout, view, key, shape.key, value, shape.value), status);
    if (status == ODHT_OK)
        SAME_BYTES(value, value_in(table, slot), shape.value);
    else
        ALL_BYTES(value, shape.value, FILL);
    STATUS(odht_any_view_contains(&layout, view, key, shape.key), status);
}

/* Looks up these keys at once. */
static void look_up_all_beside(const struct reading *table, const odht_view *view,
                               const uint8_t *keys, size_t count)
{
    struct shape shape = table->shape;
    odht_layout layout = layout_of(shape);
    uint8_t *values = bytes_of(count * shape.value);
    uint8_t *expected = bytes_of(count * shape.value);
    uint8_t *found = bytes_of(count);

    STATUS(odht_any_view_get_all(&layout, view, count, keys, count * shape.key, values,
                                 count * shape.value, found, count),
           ODHT_OK);
    for (size_t index = 0; index < count; index++) {
        size_t slot = search_end(table, keys + index * shape.key);

        EQUAL(found[index], is_occupied(table, slot));
        if (is_occupied(table, slot))
            memcpy(expected + index * shape.value, value_in(table, slot), shape.value);
    }
    SAME_BYTES(values, expected, count * shape.value);
}

/* A view of the table that a second writing makes of random pairs: each of its keys and as many others. */
static void one_view(struct shape shape, struct random *random)
{
    odht_layout layout = layout_of(shape);
    size_t len = image_len(shape, SLOTS);
    uint8_t *bytes = bytes_of(len);
    uint8_t *keys = bytes_of(2 * ITEMS * shape.key);
    uint8_t *values = bytes_of(ITEMS * shape.value);
    struct reading table = { bytes, len, shape };
    odht_view *view = view_of_nothing();

    random_bytes(random, keys, 2 * ITEMS * shape.key);
    random_bytes(random, values, ITEMS * shape.value);
    place_nothing(bytes, shape, SLOTS, factor_of_percent(PERCENT));
    for (size_t item = 0; item < ITEMS; item++)
        place_pair(bytes, len, shape, keys + item * shape.key, values + item * shape.value);
    freeze(bytes);
    STATUS(odht_any_open_view(&layout, bytes, len, view), ODHT_OK);
    HOLDS(view->bytes == bytes);
    EQUAL(view->len, len);
    EQUAL(odht_any_view_len(view), occupied_in(&table));
    for (size_t item = 0; item < 2 * ITEMS; item++)
        look_up_beside(&table, view, keys + item * shape.key);
    look_up_all_beside(&table, view, keys, 2 * ITEMS);
}

/* The build of these pairs by a table that grows, in a buffer with a byte more than it needs. */
static void growing_beside(struct shape shape, struct random *random)
{
    odht_layout layout = layout_of(shape);
    size_t most = image_len(shape, GROWN_SLOTS);
    size_t len = image_len(shape, SLOTS);
    size_t keys_len = GROWN_ITEMS * shape.key;
    size_t values_len = GROWN_ITEMS * shape.value;
    uint8_t *keys = bytes_of(keys_len);
    uint8_t *values = bytes_of(values_len);
    uint8_t *expected = bytes_of(most);
    uint8_t *spare = bytes_of(most);
    uint8_t *out = bytes_of(most + 1);
    size_t *found = SIZES(99);

    random_bytes(random, keys, keys_len);
    random_bytes(random, values, values_len);
    place_nothing(expected, shape, SLOTS, factor_of_percent(87));
    for (size_t item = 0; item < GROWN_ITEMS; item++)
        len = place_growing(expected, len, spare, shape, keys + item * shape.key,
                            values + item * shape.value);
    STATUS(odht_any_build_growing(&layout, GROWN_ITEMS, keys, keys_len, values, values_len, out,
                                  len - 1, found),
           ODHT_TOO_SMALL);
    EQUAL(*found, len);
    ALL_BYTES(out, most + 1, FILL);
    *found = 99;
    STATUS(odht_any_build_growing(&layout, GROWN_ITEMS, keys, keys_len, values, values_len, out,
                                  most + 1, found),
           ODHT_OK);
    EQUAL(*found, len);
    SAME_BYTES(out, expected, len);
    ALL_BYTES(out + len, most + 1 - len, FILL);
}

static void views_find_what_a_second_reading_does(void)
{
    for_lengths(one_view, 93);
}

static void growing_builds_are_those_of_a_second_writing(void)
{
    for_lengths(growing_beside, 93);
}

/* A table of a shape: a view by either opening is the same, and is read by the lookups of either. */
static void views_are_those_of_the_shapes(void)
{
    for (size_t at = 0; at < SHAPES; at++) {
        const struct calls *calls = &all_shapes[at];
        struct shape shape = calls->shape;
        odht_layout layout = layout_of(shape);
        size_t len = image_len(shape, SLOTS);
        uint8_t *bytes = bytes_of(len);
        void *keys = counted_keys(shape, 2 * ITEMS);
        void *values = counted_values(shape, ITEMS);
        struct reading table = { bytes, len, shape };
        odht_view *view = view_of_nothing();
        odht_view *other = view_of_nothing();

        in_case(calls->name, at);
        STATUS(calls->init(bytes, len, ITEMS, PERCENT), ODHT_OK);
        STATUS(calls->insert_all(bytes, len, keys, ITEMS, values, ITEMS, SIZES(0)), ODHT_OK);
        STATUS(calls->open_view(bytes, len, view), ODHT_OK);
        STATUS(odht_any_open_view(&layout, bytes, len, other), ODHT_OK);
        HOLDS(view->bytes == other->bytes);
        EQUAL(view->len, other->len);
        EQUAL(odht_any_view_len(view), ITEMS);
        EQUAL(calls->view_len(other), ITEMS);
        look_up_all_beside(&table, view, keys, 2 * ITEMS);
        STATUS(calls->view_get(other, keys, numbers_of(shape.value)), ODHT_OK);
    }
}

/* The bytes that a shape's growing build writes, for counts of pairs below and above each growth. */
static void growing_builds_are_those_of_the_shapes(void)
{
    static const size_t counts[] = { 0, 1, 13, 14, 27, 28, GROWN_ITEMS };

    for (size_t at = 0; at < SHAPES; at++)
        for (size_t row = 0; row < sizeof counts / sizeof counts[0]; row++) {
            const struct calls *calls = &all_shapes[at];
            struct shape shape = calls->shape;
            odht_layout layout = layout_of(shape);
            size_t count = counts[row];
            size_t most = image_len(shape, GROWN_SLOTS);
            size_t before = buffer_count();
            uint8_t *keys = counted_keys(shape, count);
            uint8_t *values = counted_values(shape, count);
            uint8_t *out = bytes_of(most);
            uint8_t *expected = bytes_of(most);
            size_t *lens = SIZES(99, 98);

            in_case(calls->name, count);
            STATUS(calls->build_growing(keys, count, values, count, expected, most, &lens[0]),
                   ODHT_OK);
            STATUS(odht_any_build_growing(&layout, count, keys, count * shape.key, values,
                                          count * shape.value, out, most, &lens[1]),
                   ODHT_OK);
            EQUAL(lens[1], lens[0]);
            SAME_BYTES(out, expected, most);
            drop_buffers_since(before);
        }
}

/* After inserts and a new table in the same bytes the view of them finds what is there then. */
static void a_view_finds_what_was_inserted_behind_it(void)
{
    uint8_t *bytes = number_table();
    const uint8_t *nine = BYTES(9, 0, 0, 0, 0, 0, 0, 0);
    const uint8_t *two = BYTES(10, 0, 0, 0, 0, 0, 0, 0, 11, 0, 0, 0, 0, 0, 0, 0);
    odht_view *view = view_of_nothing();
    uint8_t *value = bytes_of(4);

    STATUS(odht_any_open_view(&numbers, bytes, NUMBERS_LEN, view), ODHT_OK);
    STATUS(odht_any_view_contains(&numbers, view, nine, 8), ODHT_ABSENT);
    STATUS(odht_any_insert(&numbers, bytes, NUMBERS_LEN, nine, 8, BYTES(1, 2, 3, 4), 4,
                           bytes_of(4), 4),
           ODHT_OK);
    STATUS(odht_any_view_get(&numbers, view, nine, 8, value, 4), ODHT_OK);
    SAME_BYTES(value, ((const uint8_t[]){ 1, 2, 3, 4 }), 4);
    STATUS(odht_any_insert_all(&numbers, bytes, NUMBERS_LEN, 2, two, 16,
                               BYTES(5, 5, 5, 5, 6, 6, 6, 6), 8, SIZES(0)),
           ODHT_OK);
    EQUAL(odht_any_view_len(view), 6);
    STATUS(odht_any_view_get(&numbers, view, two + 8, 8, value, 4), ODHT_OK);
    SAME_BYTES(value, ((const uint8_t[]){ 6, 6, 6, 6 }), 4);
    /* 13 items at 87 percent take the same sixteen slots */
    STATUS(odht_any_init(&numbers, bytes, NUMBERS_LEN, 13, 87), ODHT_OK);
    STATUS(odht_any_view_contains(&numbers, view, nine, 8), ODHT_ABSENT);
    EQUAL(odht_any_view_len(view), 0);
}

/* Each bit of a table changed: the status of the shape's opening, and after an error the view that was there. */
static void a_rejected_opening_leaves_the_view(void)
{
    const uint8_t *whole = number_table();

    for (size_t at = 0; at < NUMBERS_LEN; at++)
        for (unsigned bit = 0; bit < 8; bit++) {
            size_t before = buffer_count();
            uint8_t *bytes = number_table();
            odht_view *view = view_of_nothing();
            odht_view *other = view_of_nothing();
            uint32_t status;

            in_case("byte and bit", 10 * at + bit);
            bytes[at] ^= (uint8_t)(1 << bit);
            freeze(bytes);
            STATUS(odht_any_open_view(&numbers, whole, NUMBERS_LEN, view), ODHT_OK);
            status = odht_u64_u32_open_view(bytes, NUMBERS_LEN, other);
            STATUS(odht_any_open_view(&numbers, bytes, NUMBERS_LEN, view), status);
            HOLDS(view->bytes == (status == ODHT_OK ? bytes : whole));
            EQUAL(view->len, NUMBERS_LEN);
            drop_buffers_since(before);
        }
}

/* The bytes are of another layout, or the layout is none. */
static void other_layouts_are_rejected(void)
{
    static const odht_layout none[] = { { 8, 4, 3 }, { 8, 4, 255 }, { 3, 4, 1 }, { 0, 0, 1 } };
    const odht_layout others[] = { { 4, 4, ODHT_HASH_FX }, { 8, 8, ODHT_HASH_FX } };
    const uint8_t *bytes = number_table();
    odht_view *view = view_of_nothing();
    uint8_t *out = bytes_of(512);
    size_t *len = SIZES(5);

    STATUS(odht_any_open_view(&others[0], bytes, NUMBERS_LEN, view), ODHT_WRONG_SIZE);
    STATUS(odht_any_open_view(&others[1], bytes, NUMBERS_LEN, view), ODHT_WRONG_SIZE);
    for (size_t row = 0; row < sizeof none / sizeof none[0]; row++) {
        uint8_t *value = bytes_of(none[row].value_len);
        const uint8_t *key = bytes_of(none[row].key_len);

        in_case("layout", row);
        STATUS(odht_any_open_view(&none[row], bytes, NUMBERS_LEN, view), ODHT_BAD_LAYOUT);
        STATUS(odht_any_view_get(&none[row], view, key, none[row].key_len, value,
                                 none[row].value_len),
               ODHT_BAD_LAYOUT);
        STATUS(odht_any_view_contains(&none[row], view, key, none[row].key_len), ODHT_BAD_LAYOUT);
        STATUS(odht_any_view_get_all(&none[row], view, 0, out, 0, out, 0, out, 0),
               ODHT_BAD_LAYOUT);
        STATUS(odht_any_build_growing(&none[row], 0, out, 0, out, 0, out, 512, len),
               ODHT_BAD_LAYOUT);
        ALL_BYTES(value, none[row].value_len, FILL);
    }
    EQUAL(view->len, 0);
    EQUAL(*len, 5);
    ALL_BYTES(out, 512, FILL);
}

/* A key, a value, or many of them, that have another length. The last count times eight passes
   64 bits, and is 0. */
static void other_lengths_are_rejected(void)
{
    static const size_t single[][2] = { { 7, 4 }, { 9, 4 }, { 0, 4 },
                                        { 8, 3 }, { 8, 5 }, { 8, 0 } };
    static const size_t many[][4] = { { 2, 15, 8, 2 }, { 2, 16, 9, 2 }, { 2, 17, 8, 2 },
                                      { 3, 16, 8, 3 }, { 2, 16, 0, 2 },
                                      { (size_t)1 << 61, 0, 0, 0 } };
    const uint8_t *bytes = number_table();
    odht_view *view = view_of_nothing();
    uint8_t *out = bytes_of(NUMBERS_LEN);
    size_t *len = SIZES(5);

    STATUS(odht_any_open_view(&numbers, bytes, NUMBERS_LEN, view), ODHT_OK);
    for (size_t row = 0; row < sizeof single / sizeof single[0]; row++) {
        const uint8_t *key = bytes_of(single[row][0]);
        uint8_t *value = bytes_of(single[row][1]);

        in_case("one", row);
        STATUS(odht_any_view_get(&numbers, view, key, single[row][0], value, single[row][1]),
               ODHT_BAD_LENGTHS);
        ALL_BYTES(value, single[row][1], FILL);
        STATUS(odht_any_view_contains(&numbers, view, key, single[row][0]),
               single[row][0] == 8 ? ODHT_ABSENT : ODHT_BAD_LENGTHS);
    }
    for (size_t row = 0; row < sizeof many / sizeof many[0]; row++) {
        uint8_t *keys = bytes_of(many[row][1]);
        uint8_t *values = bytes_of(many[row][2]);
        uint8_t *found = bytes_of(many[row][3]);

        in_case("many", row);
        STATUS(odht_any_view_get_all(&numbers, view, many[row][0], keys, many[row][1], values,
                                     many[row][2], found, many[row][3]),
               ODHT_BAD_LENGTHS);
        STATUS(odht_any_build_growing(&numbers, many[row][0], keys, many[row][1], values,
                                      many[row][2], out, NUMBERS_LEN, len),
               ODHT_BAD_LENGTHS);
        ALL_BYTES(values, many[row][2], FILL);
        ALL_BYTES(found, many[row][3], FILL);
    }
    STATUS(odht_any_view_get_all(&numbers, view, 1, bytes_of(8), 8, bytes_of(4), 4, bytes_of(2), 2),
           ODHT_BAD_LENGTHS);
    EQUAL(*len, 5);
    ALL_BYTES(out, NUMBERS_LEN, FILL);
}

#if ODHT_TAKES_NULL
static void what_is_not_wanted_may_be_null(void)
{
    static const odht_layout set = { 8, 0, ODHT_HASH_FX };
    const uint8_t *bytes = number_table();
    const uint8_t *key = BYTES(5, 0, 0, 0, 0, 0, 0, 0);
    odht_view *view = view_of_nothing();
    uint8_t *out = bytes_of(NUMBERS_LEN);

    STATUS(odht_any_open_view(&numbers, NULL, 0, view), ODHT_TOO_SHORT);
    STATUS(odht_any_open_view(&numbers, bytes, NUMBERS_LEN, view), ODHT_OK);
    STATUS(odht_any_view_get(&numbers, view, key, 8, NULL, 0), ODHT_OK);
    STATUS(odht_any_view_get_all(&numbers, view, 0, NULL, 0, NULL, 0, NULL, 0), ODHT_OK);
    STATUS(odht_any_build_growing(&numbers, 0, NULL, 0, NULL, 0, NULL, 0, NULL), ODHT_TOO_SMALL);
    STATUS(odht_any_build_growing(&numbers, 0, NULL, 0, NULL, 0, out, NUMBERS_LEN, NULL), ODHT_OK);
    STATUS(odht_any_build_growing(&set, 1, key, 8, NULL, 0, out, NUMBERS_LEN, NULL), ODHT_OK);
    STATUS(odht_any_contains(&set, out, 32 + 16 * 8 + 32, key, 8), ODHT_OK);
}
#endif

const struct test any_view_tests[] = {
    TEST(views_find_what_a_second_reading_does),
    TEST(views_are_those_of_the_shapes),
    TEST(a_view_finds_what_was_inserted_behind_it),
    TEST(a_rejected_opening_leaves_the_view),
    TEST(growing_builds_are_those_of_a_second_writing),
    TEST(growing_builds_are_those_of_the_shapes),
    TEST(other_layouts_are_rejected),
    TEST(other_lengths_are_rejected),
#if ODHT_TAKES_NULL
    TEST(what_is_not_wanted_may_be_null),
#endif
    END_OF_TESTS
};
