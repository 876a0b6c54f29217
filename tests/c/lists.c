/*
 * Lists of pairs that look random, in each shape: built at once, pair by pair, growing, and in the order that
 * insert_order finds. The bytes must be those of the second writing, and the pairs those of a map kept separately.
 */
#include <stdint.h>
#include <string.h>

#include "buffers.h"
#include "calls.h"
#include "keys.h"
#include "odht.h"
#include "placing.h"
#include "random.h"
#include "reading.h"
#include "subjects.h"

/* At most so many pairs, and bytes of a table of 128 slots with the longest entries. */
enum { SEEDS = 32, MOST_PAIRS = 3 * SEEDS, MOST_BYTES = 32 + 128 * 65 + 16 };

/* A list, and room for tables of it. */
struct list {
    const struct calls *calls;
    size_t count;
    uint8_t *keys;
    uint8_t *values;
    uint8_t *expected;
    size_t len;
    uint8_t *out;
};

static const uint8_t *key_at(const struct list *list, size_t index)
{
    return list->keys + index * list->calls->shape.key;
}

static const uint8_t *value_at(const struct list *list, size_t index)
{
    return list->values + index * list->calls->shape.value;
}

/* The index of the last pair before `end` with the same key as this one, or `end`. */
static size_t last_before(const struct list *list, size_t end, size_t index)
{
    for (size_t at = end; at > 0; at--)
        if (memcmp(key_at(list, at - 1), key_at(list, index), list->calls->shape.key) == 0)
            return at - 1;
    return end;
}

/* How many different keys there are. */
static size_t distinct(const struct list *list)
{
    size_t count = 0;

    for (size_t index = 0; index < list->count; index++)
        count += last_before(list, index, index) == index;
    return count;
}

/* Three times `seed` pairs of bytes that look random. */
static void fill_random(struct list *list, uint64_t seed)
{
    struct random random = { seed };

    for (size_t index = 0; index < list->count; index++) {
        random_bytes(&random, list->keys + index * list->calls->shape.key, list->calls->shape.key);
        random_bytes(&random, list->values + index * list->calls->shape.value,
                     list->calls->shape.value);
    }
}

/* As many pairs whose keys are numbers below 32, so that most come again. */
static void fill_repeating(struct list *list, uint64_t seed)
{
    struct random random = { seed };

    for (size_t index = 0; index < list->count; index++) {
        write_key(list->calls->shape, random_byte(&random) % 32,
                  list->keys + index * list->calls->shape.key);
        write_value(list->calls->shape, random_word(&random),
                    list->values + index * list->calls->shape.value);
    }
}

/* The table by the second writing, at 87 percent. */
static void place_list(struct list *list)
{
    struct shape shape = list->calls->shape;
    uint64_t factor = factor_of_percent(87);
    size_t slots = slots_for(list->count, factor);

    list->len = image_len(shape, slots);
    place_nothing(list->expected, shape, slots, factor);
    for (size_t index = 0; index < list->count; index++)
        place_pair(list->expected, list->len, shape, key_at(list, index), value_at(list, index));
}

/* Each key is found with the last value that the list gives it. */
static void check_found(const struct list *list)
{
    struct shape shape = list->calls->shape;
    uint8_t *value = numbers_of(shape.value);

    for (size_t index = 0; index < list->count; index++) {
        size_t last = last_before(list, list->count, index);
        STATUS(list->calls->get(list->expected, list->len, key_at(list, index), value), ODHT_OK);
        SAME_BYTES(value, value_at(list, last), shape.value);
    }
}

/* The build has the bytes of the second writing, and is a valid table of the different keys. */
static void check_build(const struct list *list)
{
    size_t *len = SIZES(0);
    size_t *count = SIZES(0);

    STATUS(list->calls->build(list->keys, list->count, list->values, list->count, 87, list->out,
                              list->len, len), ODHT_OK);
    EQUAL(*len, list->len);
    SAME_BYTES(list->out, list->expected, list->len);
    STATUS(list->calls->check(list->out, list->len), ODHT_OK);
    STATUS(list->calls->len(list->out, list->len, count), ODHT_OK);
    EQUAL(*count, distinct(list));
}

/* One insert returns what the list says: whether the key came before, and with which value. */
static void check_insert(const struct list *list, size_t index)
{
    struct shape shape = list->calls->shape;
    size_t before = last_before(list, index, index);
    uint64_t former[4];
    bool is_new = before == index;

    memset(former, FILL, sizeof former);
    STATUS(list->calls->insert(list->out, list->len, key_at(list, index), value_at(list, index),
                               former),
           is_new ? ODHT_OK : ODHT_REPLACED);
    if (is_new)
        ALL_BYTES(former, sizeof former, FILL);
    else
        SAME_BYTES(former, value_at(list, before), shape.value);
}

/* Pair by pair, and then all at once into another table. */
static void check_inserts(const struct list *list)
{
    const struct calls *calls = list->calls;
    size_t *accepted = SIZES(99);

    STATUS(calls->init(list->out, list->len, list->count, 87), ODHT_OK);
    for (size_t index = 0; index < list->count; index++)
        check_insert(list, index);
    SAME_BYTES(list->out, list->expected, list->len);
    STATUS(calls->init(list->out, list->len, list->count, 87), ODHT_OK);
    STATUS(calls->insert_all(list->out, list->len, list->keys, list->count, list->values,
                             list->count, accepted),
           ODHT_OK);
    EQUAL(*accepted, list->count);
    SAME_BYTES(list->out, list->expected, list->len);
}

/* The table that grows by itself, by the second writing. Returns its length. */
static size_t place_list_growing(const struct list *list, uint8_t *bytes)
{
    struct shape shape = list->calls->shape;
    uint8_t *spare = bytes_of(MOST_BYTES);
    size_t len = image_len(shape, 16);

    place_nothing(bytes, shape, 16, factor_of_percent(87));
    for (size_t index = 0; index < list->count; index++)
        len = place_growing(bytes, len, spare, shape, key_at(list, index), value_at(list, index));
    return len;
}

static void check_growing(const struct list *list)
{
    uint8_t *expected = bytes_of(MOST_BYTES);
    uint8_t *out = bytes_of(MOST_BYTES);
    size_t expected_len = place_list_growing(list, expected);
    size_t *len = SIZES(0);

    STATUS(list->calls->build_growing(list->keys, list->count, list->values, list->count, out,
                                      MOST_BYTES, len), ODHT_OK);
    EQUAL(*len, expected_len);
    SAME_BYTES(out, expected, expected_len);
    ALL_BYTES(out + expected_len, MOST_BYTES - expected_len, FILL);
}

/* The walk gives the pairs of the occupied slots, in slot order. */
static void check_walk(const struct list *list)
{
    struct reading table = { list->expected, list->len, list->calls->shape };
    uint8_t *keys = numbers_of(MOST_PAIRS * table.shape.key);
    uint8_t *values = numbers_of(MOST_PAIRS * table.shape.value);
    size_t *count = SIZES(0);
    size_t walked = 0;

    STATUS(list->calls->walk(table.bytes, table.len, SIZES(0), keys, MOST_PAIRS, values,
                             MOST_PAIRS, count),
           ODHT_OK);
    EQUAL(*count, occupied_in(&table));
    for (size_t slot = 0; slot < slots_of(&table); slot++) {
        if (!is_occupied(&table, slot))
            continue;
        SAME_BYTES(keys + walked * table.shape.key, key_in(&table, slot), table.shape.key);
        SAME_BYTES(values + walked * table.shape.value, value_in(&table, slot), table.shape.value);
        walked++;
    }
}

/* Inserts the pair of a slot, which is occupied and comes for the first time. */
static void insert_slot(const struct list *list, size_t slot)
{
    struct reading table = { list->expected, list->len, list->calls->shape };

    HOLDS(slot < slots_of(&table) && is_occupied(&table, slot));
    STATUS(list->calls->insert(list->out, list->len,
                               copy_of_numbers(key_in(&table, slot), table.shape.key),
                               copy_of_numbers(value_in(&table, slot), table.shape.value), NULL),
           ODHT_OK);
}

/* An order of inserts is found, lists each occupied slot once, and makes the table again. */
static void check_order(const struct list *list)
{
    size_t count = distinct(list);
    size_t *slots = numbers_of(count * sizeof *slots);

    STATUS(list->calls->insert_order(list->expected, list->len, slots, count), ODHT_OK);
    STATUS(list->calls->init(list->out, list->len, list->count, 87), ODHT_OK);
    for (size_t index = 0; index < count; index++)
        insert_slot(list, slots[index]);
    SAME_BYTES(list->out, list->expected, list->len);
}

/* All properties of a list that one of the functions fills. */
static void check_list(const struct calls *calls, uint64_t seed,
                       void (*fill)(struct list *, uint64_t))
{
    size_t kept = buffer_count();
    struct list list = { .calls = calls, .count = 3 * seed };

    list.keys = numbers_of(list.count * calls->shape.key);
    list.values = numbers_of(list.count * calls->shape.value);
    list.expected = bytes_of(MOST_BYTES);
    fill(&list, seed);
    place_list(&list);
    list.expected = copy_of(list.expected, list.len);
    list.out = bytes_of(list.len);
    check_build(&list);
    check_found(&list);
    check_inserts(&list);
    check_growing(&list);
    check_walk(&list);
    check_order(&list);
    drop_buffers_since(kept);
}

static void check_lists(const struct calls *calls)
{
    for (uint64_t seed = 0; seed < SEEDS; seed++) {
        in_case(calls->name, seed);
        check_list(calls, seed, fill_random);
        check_list(calls, seed, fill_repeating);
    }
}

static void lists_in_each_shape(void)
{
    for (size_t index = 0; index < SHAPES; index++)
        check_lists(&all_shapes[index]);
}

const struct test list_tests[] = {
    TEST(lists_in_each_shape),
    END_OF_TESTS
};
