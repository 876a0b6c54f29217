/* Dynamic tables, compared with the second writing and with the calls of the shapes. */
#include <stdint.h>
#include <string.h>

#include "buffers.h"
#include "calls.h"
#include "keys.h"
#include "layouts.h"
#include "odht.h"
#include "placing.h"
#include "random.h"
#include "reading.h"
#include "subjects.h"
#include "tables.h"

enum { LONGEST = 64, NUMBERS_LEN = 256 };

static const odht_layout numbers = { 8, 4, ODHT_HASH_FX };

odht_layout layout_of(struct shape shape)
{
    static const uint8_t numbers_of_hashes[] = { ODHT_HASH_FX, ODHT_HASH_UN, ODHT_HASH_XXH64 };
    odht_layout layout = { (uint8_t)shape.key, (uint8_t)shape.value,
                           numbers_of_hashes[shape.hash] };

    return layout;
}

uint8_t *empty_table(odht_layout layout, size_t len)
{
    uint8_t *bytes = bytes_of(len);
    size_t *needed = SIZES(0);

    STATUS(odht_any_bytes_needed(&layout, ITEMS, PERCENT, needed), ODHT_OK);
    EQUAL(*needed, len);
    STATUS(odht_any_init(&layout, bytes, len, ITEMS, PERCENT), ODHT_OK);
    return bytes;
}

void for_lengths(void (*one)(struct shape shape, struct random *random), uint64_t seed)
{
    static const size_t key_lens[] = { 1, 3, 4, 5, 8, 12, 13, 16, 20, 33, 64, 255 };
    static const size_t value_lens[] = { 0, 1, 4, 12, 255 };
    struct random random = { seed };

    for (size_t key = 0; key < sizeof key_lens / sizeof key_lens[0]; key++)
        for (size_t value = 0; value < sizeof value_lens / sizeof value_lens[0]; value++) {
            struct shape by_fx = { key_lens[key], value_lens[value], FX };
            struct shape by_un = { key_lens[key], value_lens[value], UN };
            struct shape by_xxh64 = { key_lens[key], value_lens[value], XXH64 };
            size_t before = buffer_count();

            in_case("key and value", 1000 * by_fx.key + by_fx.value);
            one(by_fx, &random);
            if (by_un.key >= 4)
                one(by_un, &random);
            one(by_xxh64, &random);
            drop_buffers_since(before);
        }
}

/* Inserts a pair, also in the second writing, and looks at the answer by a search slot by slot. */
static void insert_beside(struct shape shape, uint8_t *bytes, uint8_t *expected, size_t len,
                          const uint8_t *key, const uint8_t *value)
{
    struct reading table = { expected, len, shape };
    odht_layout layout = layout_of(shape);
    size_t slot = search_end(&table, key);
    uint8_t *former = bytes_of(shape.value);
    uint8_t *known = bytes_of(shape.value);
    uint32_t status = ODHT_OK;

    if (is_occupied(&table, slot)) {
        status = ODHT_REPLACED;
        memcpy(known, value_in(&table, slot), shape.value);
    }
    STATUS(odht_any_contains(&layout, bytes, len, key, shape.key),
           status == ODHT_OK ? ODHT_ABSENT : ODHT_OK);
    STATUS(odht_any_insert(&layout, bytes, len, key, shape.key, value, shape.value, former,
                           shape.value),
           status);
    SAME_BYTES(former, known, shape.value);
    place_pair(expected, len, shape, key, value);
    SAME_BYTES(bytes, expected, len);
    STATUS(odht_any_get(&layout, bytes, len, key, shape.key, former, shape.value),
           ODHT_OK);
    SAME_BYTES(former, value, shape.value);
    STATUS(odht_any_contains(&layout, bytes, len, key, shape.key), ODHT_OK);
}

/* The growth of a table, beside the second writing, in a buffer with a byte more than it needs. */
static void grow_beside(struct shape shape, const uint8_t *bytes, size_t len)
{
    struct reading table = { bytes, len, shape };
    odht_layout layout = layout_of(shape);
    size_t grown = image_len(shape, 2 * SLOTS);
    uint8_t *out = bytes_of(grown + 1);
    uint8_t *expected = bytes_of(grown);
    size_t *needed = SIZES(0);

    place_nothing(expected, shape, 2 * SLOTS, factor_of(&table));
    place_all(expected, grown, &table);
    STATUS(odht_any_grow(&layout, bytes, len, out, grown - 1, needed), ODHT_TOO_SMALL);
    EQUAL(*needed, grown);
    ALL_BYTES(out, grown + 1, FILL);
    STATUS(odht_any_grow(&layout, bytes, len, out, grown + 1, needed), ODHT_OK);
    SAME_BYTES(out, expected, grown);
    ALL_BYTES(out + grown, 1, FILL);
}

/* One table of a layout, with so many items, after inserts of random pairs. */
static void one_table(struct shape shape, struct random *random)
{
    odht_layout layout = layout_of(shape);
    odht_layout stated = { 1, 1, layout.hash };
    size_t len = image_len(shape, SLOTS);
    uint8_t *bytes = empty_table(layout, len);
    uint8_t *expected = bytes_of(len);
    uint8_t *key = bytes_of(shape.key);
    uint8_t *value = bytes_of(shape.value);
    struct reading table = { expected, len, shape };
    size_t *count = SIZES(0);

    place_nothing(expected, shape, SLOTS, factor_of_percent(PERCENT));
    SAME_BYTES(bytes, expected, len);
    while (occupied_in(&table) < ITEMS) {
        random_bytes(random, key, shape.key);
        random_bytes(random, value, shape.value);
        insert_beside(shape, bytes, expected, len, key, value);
    }
    STATUS(odht_any_len(&layout, bytes, len, count), ODHT_OK);
    EQUAL(*count, ITEMS);
    STATUS(odht_any_open(&layout, bytes, len), ODHT_OK);
    STATUS(odht_any_check(&layout, bytes, len), ODHT_OK);
    STATUS(odht_any_check_within(&layout, bytes, len, 1), ODHT_OK);
    STATUS(odht_any_layout_of(bytes, len, &stated), ODHT_OK);
    SAME_BYTES(&stated, &layout, sizeof layout);
    if (shape.value <= 4)
        grow_beside(shape, bytes, len);
}

static void tables_of_each_length_are_those_of_a_second_writing(void)
{
    struct random random = { 68 };

    for (size_t key = 1; key <= LONGEST; key++)
        for (size_t value = 0; value <= LONGEST; value += key % 8 == 0 ? 1 : 13) {
            struct shape by_fx = { key, value, FX };
            struct shape by_un = { key, value, UN };
            struct shape by_xxh64 = { key, value, XXH64 };
            size_t before = buffer_count();

            in_case("key and value", 1000 * key + value);
            one_table(by_fx, &random);
            if (key >= 4)
                one_table(by_un, &random);
            one_table(by_xxh64, &random);
            drop_buffers_since(before);
        }
}

static void tables_are_those_of_the_shapes(void)
{
    for (size_t at = 0; at < SHAPES; at++) {
        const struct calls *calls = &all_shapes[at];
        odht_layout layout = layout_of(calls->shape);
        size_t len = image_len(calls->shape, SLOTS);
        uint8_t *bytes = empty_table(layout, len);
        uint8_t *expected = numbers_of(len);
        const uint8_t *keys = counted_keys(calls->shape, ITEMS);
        const uint8_t *values = counted_values(calls->shape, ITEMS);
        size_t *accepted = SIZES(0);

        in_case(calls->name, at);
        STATUS(calls->init(expected, len, ITEMS, PERCENT), ODHT_OK);
        STATUS(calls->insert_all(expected, len, keys, ITEMS, values, ITEMS, accepted), ODHT_OK);
        for (size_t item = 0; item < ITEMS; item++)
            STATUS(odht_any_insert(&layout, bytes, len, keys + item * calls->shape.key,
                                   calls->shape.key, values + item * calls->shape.value,
                                   calls->shape.value, NULL, 0),
                   ODHT_OK);
        SAME_BYTES(bytes, expected, len);
    }
}

static void a_full_table_takes_no_new_key(void)
{
    uint8_t *bytes = number_table();
    uint8_t *same = number_table();
    odht_layout layout = numbers;

    /* at 20 percent its sixteen slots take three items */
    change(bytes, (const struct change[]){ { 28, 0x33 }, { 29, 0x33 }, END_OF_CHANGES });
    change(same, (const struct change[]){ { 28, 0x33 }, { 29, 0x33 }, END_OF_CHANGES });
    STATUS(odht_any_insert(&layout, bytes, NUMBERS_LEN, BYTES(9, 0, 0, 0, 0, 0, 0, 0), 8,
                           BYTES(1, 0, 0, 0), 4, NULL, 0),
           ODHT_FULL);
    SAME_BYTES(bytes, same, NUMBERS_LEN);
}

/* Each call answers this status and writes nothing. */
static void each_answers(odht_layout layout, uint32_t status)
{
    uint8_t *bytes = number_table();
    const uint8_t *same = number_table();
    uint8_t *out = bytes_of(512);
    uint8_t *value = bytes_of(layout.value_len);
    uint8_t *former = bytes_of(layout.value_len);
    uint8_t *percent = bytes_of(1);
    const uint8_t *key = bytes_of(layout.key_len);
    size_t *len = SIZES(5);
    size_t *more = SIZES(5);

    STATUS(odht_any_bytes_needed(&layout, 3, 50, len), status);
    STATUS(odht_any_init(&layout, bytes, NUMBERS_LEN, 3, 50), status);
    STATUS(odht_any_open(&layout, bytes, NUMBERS_LEN), status);
    STATUS(odht_any_check(&layout, bytes, NUMBERS_LEN), status);
    STATUS(odht_any_check_within(&layout, bytes, NUMBERS_LEN, 1), status);
    STATUS(odht_any_open_at(&layout, bytes, NUMBERS_LEN, len), status);
    STATUS(odht_any_check_at(&layout, bytes, NUMBERS_LEN, len), status);
    STATUS(odht_any_check_within_at(&layout, bytes, NUMBERS_LEN, 1, len), status);
    STATUS(odht_any_len(&layout, bytes, NUMBERS_LEN, len), status);
    STATUS(odht_any_sizes(&layout, bytes, NUMBERS_LEN, len, more, percent), status);
    STATUS(odht_any_table_len(&layout, bytes, NUMBERS_LEN, len), status);
    STATUS(odht_any_get_all(&layout, bytes, NUMBERS_LEN, 0, out, 0, out, 0, out, 0), status);
    STATUS(odht_any_insert_all(&layout, bytes, NUMBERS_LEN, 0, out, 0, out, 0, len), status);
    STATUS(odht_any_walk(&layout, bytes, NUMBERS_LEN, len, 0, out, 0, out, 0, more), status);
    STATUS(odht_any_get(&layout, bytes, NUMBERS_LEN, key, layout.key_len, value, layout.value_len),
           status);
    STATUS(odht_any_contains(&layout, bytes, NUMBERS_LEN, key, layout.key_len), status);
    STATUS(odht_any_insert(&layout, bytes, NUMBERS_LEN, key, layout.key_len, value,
                           layout.value_len, former, layout.value_len),
           status);
    STATUS(odht_any_insert_order(&layout, bytes, NUMBERS_LEN, len, 1, more, 1), status);
    STATUS(odht_any_grow(&layout, bytes, NUMBERS_LEN, out, 512, len), status);
    STATUS(odht_any_build(&layout, 0, out, 0, out, 0, 87, bytes, NUMBERS_LEN, len), status);
    EQUAL(*len, 5);
    EQUAL(*more, 5);
    SAME_BYTES(bytes, same, NUMBERS_LEN);
    ALL_BYTES(out, 512, FILL);
    ALL_BYTES(value, layout.value_len, FILL);
    ALL_BYTES(former, layout.value_len, FILL);
    ALL_BYTES(percent, 1, FILL);
}

static void a_layout_that_is_none_is_rejected(void)
{
    static const odht_layout bad[] = { { 8, 4, 3 }, { 8, 4, 255 }, { 3, 4, 1 }, { 0, 0, 1 } };

    for (size_t row = 0; row < sizeof bad / sizeof bad[0]; row++) {
        in_case("layout", row);
        each_answers(bad[row], ODHT_BAD_LAYOUT);
    }
}

static void keys_and_values_of_other_lengths_are_rejected(void)
{
    static const size_t lengths[][3] = { { 7, 4, 4 }, { 9, 4, 4 }, { 0, 4, 4 }, { 8, 3, 4 },
                                         { 8, 5, 4 }, { 8, 4, 3 }, { 8, 4, 5 } };
    uint8_t *bytes = number_table();
    const uint8_t *same = number_table();

    for (size_t row = 0; row < sizeof lengths / sizeof lengths[0]; row++) {
        size_t key_len = lengths[row][0];
        size_t value_len = lengths[row][1];
        size_t former_len = lengths[row][2];
        const uint8_t *key = bytes_of(key_len);
        uint8_t *value = bytes_of(value_len);
        uint8_t *former = bytes_of(former_len);

        in_case("row", row);
        STATUS(odht_any_insert(&numbers, bytes, NUMBERS_LEN, key, key_len, value, value_len, former,
                               former_len),
               ODHT_BAD_LENGTHS);
        ALL_BYTES(former, former_len, FILL);
        if (former_len == 4)
            STATUS(odht_any_get(&numbers, bytes, NUMBERS_LEN, key, key_len, value, value_len),
                   ODHT_BAD_LENGTHS);
        ALL_BYTES(value, value_len, FILL);
        STATUS(odht_any_contains(&numbers, bytes, NUMBERS_LEN, key, key_len),
               key_len == 8 ? ODHT_ABSENT : ODHT_BAD_LENGTHS);
    }
    SAME_BYTES(bytes, same, NUMBERS_LEN);
}

/* Where the first error is, by the calls for any lengths and by those of a shape. */
static void places_are_those_of_the_shape(const uint8_t *bytes)
{
    size_t *slots = SIZES(9, 9);

    STATUS(odht_any_open_at(&numbers, bytes, NUMBERS_LEN, &slots[0]),
           odht_u64_u32_open_at(bytes, NUMBERS_LEN, &slots[1]));
    EQUAL(slots[0], slots[1]);
    STATUS(odht_any_check_at(&numbers, bytes, NUMBERS_LEN, &slots[0]),
           odht_u64_u32_check_at(bytes, NUMBERS_LEN, &slots[1]));
    EQUAL(slots[0], slots[1]);
    STATUS(odht_any_check_within_at(&numbers, bytes, NUMBERS_LEN, 1, &slots[0]),
           odht_u64_u32_check_within_at(bytes, NUMBERS_LEN, 1, &slots[1]));
    EQUAL(slots[0], slots[1]);
}

static void spoiled_bytes_have_the_errors_of_the_shape(void)
{
    const uint8_t *key = BYTES(5, 0, 0, 0, 0, 0, 0, 0);

    for (size_t at = 0; at < NUMBERS_LEN; at++)
        for (unsigned bit = 0; bit < 8; bit++) {
            size_t before = buffer_count();
            uint8_t *bytes = number_table();
            uint8_t *value = bytes_of(4);
            uint32_t *expected = numbers_of(4);
            size_t *count = SIZES(9, 9);

            in_case("byte and bit", 10 * at + bit);
            bytes[at] ^= (uint8_t)(1 << bit);
            freeze(bytes);
            STATUS(odht_any_open(&numbers, bytes, NUMBERS_LEN),
                   odht_u64_u32_open(bytes, NUMBERS_LEN));
            STATUS(odht_any_check(&numbers, bytes, NUMBERS_LEN),
                   odht_u64_u32_check(bytes, NUMBERS_LEN));
            STATUS(odht_any_check_within(&numbers, bytes, NUMBERS_LEN, 1),
                   odht_u64_u32_check_within(bytes, NUMBERS_LEN, 1));
            places_are_those_of_the_shape(bytes);
            STATUS(odht_any_len(&numbers, bytes, NUMBERS_LEN, &count[0]),
                   odht_u64_u32_len(bytes, NUMBERS_LEN, &count[1]));
            EQUAL(count[0], count[1]);
            STATUS(odht_any_get(&numbers, bytes, NUMBERS_LEN, key, 8, value, 4),
                   odht_u64_u32_get(bytes, NUMBERS_LEN, 5, expected));
            SAME_BYTES(value, expected, 4);
            drop_buffers_since(before);
        }
}

static void short_bytes_state_no_layout(void)
{
    const uint8_t *bytes = number_table();

    for (size_t len = 0; len < NUMBERS_LEN; len++) {
        odht_layout layout = { 1, 2, 9 };

        STATUS(odht_any_layout_of(bytes, len, &layout),
               len < 32 ? ODHT_TOO_SHORT : ODHT_WRONG_LENGTH);
        SAME_BYTES(&layout, ((const uint8_t[]){ 1, 2, 9 }), 3);
    }
}

#if ODHT_TAKES_NULL
static void what_is_not_wanted_may_be_null(void)
{
    uint8_t *bytes = number_table();
    const uint8_t *key = BYTES(5, 0, 0, 0, 0, 0, 0, 0);

    STATUS(odht_any_bytes_needed(&numbers, 3, 50, NULL), ODHT_OK);
    STATUS(odht_any_len(&numbers, bytes, NUMBERS_LEN, NULL), ODHT_OK);
    STATUS(odht_any_open(&numbers, NULL, 0), ODHT_TOO_SHORT);
    STATUS(odht_any_get(&numbers, bytes, NUMBERS_LEN, key, 8, NULL, 0), ODHT_OK);
    STATUS(odht_any_insert(&numbers, bytes, NUMBERS_LEN, key, 8, BYTES(1, 2, 3, 4), 4, NULL, 0),
           ODHT_REPLACED);
    STATUS(odht_any_grow(&numbers, bytes, NUMBERS_LEN, NULL, 0, NULL), ODHT_TOO_SMALL);
}
#endif

const struct test any_tests[] = {
    TEST(tables_of_each_length_are_those_of_a_second_writing),
    TEST(tables_are_those_of_the_shapes),
    TEST(a_full_table_takes_no_new_key),
    TEST(a_layout_that_is_none_is_rejected),
    TEST(keys_and_values_of_other_lengths_are_rejected),
    TEST(spoiled_bytes_have_the_errors_of_the_shape),
    TEST(short_bytes_state_no_layout),
#if ODHT_TAKES_NULL
    TEST(what_is_not_wanted_may_be_null),
#endif
    END_OF_TESTS
};
