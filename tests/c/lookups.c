/*
 * Lookups of many keys, compared with single lookups: full batches and others, present and absent keys, in a table with
 * one free slot.
 */
#include <stdint.h>
#include <string.h>

#include "buffers.h"
#include "calls.h"
#include "keys.h"
#include "odht.h"
#include "reading.h"
#include "subjects.h"

enum { PRESENT = 31, KEYS = 17 };

/* The keys that are looked up. The even ones up to 60 are present, with 100 and their half as their value. */
static const uint32_t numbers[KEYS] = {
    4, 5, 0, 60, 61, 62, 2, 2, 1, 30, 31, 58, 3, 8, 6, 99, 10
};

/* A table of 32 slots with all but one occupied, and the keys to look up. */
struct looked {
    const struct calls *calls;
    uint8_t *bytes;
    size_t len;
    odht_view *view;
};

static bool is_present(uint32_t number)
{
    return number % 2 == 0 && number <= 60;
}

static struct looked looked_at(const struct calls *calls)
{
    struct looked looked = { .calls = calls, .len = image_len(calls->shape, 32) };
    uint8_t *key = numbers_of(calls->shape.key);
    uint8_t *value = numbers_of(calls->shape.value);

    looked.bytes = bytes_of(looked.len);
    looked.view = view_of_nothing();
    STATUS(calls->init(looked.bytes, looked.len, PRESENT, 100), ODHT_OK);
    for (uint32_t number = 0; number < PRESENT; number++) {
        write_key(calls->shape, 2 * number, key);
        write_value(calls->shape, 100 + number, value);
        STATUS(calls->insert(looked.bytes, looked.len, key, value, NULL), ODHT_OK);
    }
    STATUS(calls->open_view(looked.bytes, looked.len, looked.view), ODHT_OK);
    freeze(looked.bytes);
    return looked;
}

/* Asserts the value of a number, or that no value was written. */
static void check_value(struct shape shape, uint32_t number, const uint8_t *value)
{
    uint8_t expected[UINT8_MAX];

    if (!is_present(number)) {
        ALL_BYTES(value, shape.value, FILL);
        return;
    }
    write_value(shape, 100 + number / 2, expected);
    SAME_BYTES(value, expected, shape.value);
}

/* Each key alone. */
static void check_alone(const struct looked *looked)
{
    struct shape shape = looked->calls->shape;
    uint8_t *key = numbers_of(shape.key);
    uint8_t *value = numbers_of(shape.value);

    for (size_t index = 0; index < KEYS; index++) {
        uint32_t expected = is_present(numbers[index]) ? ODHT_OK : ODHT_ABSENT;

        write_key(shape, numbers[index], key);
        memset(value, FILL, shape.value);
        STATUS(looked->calls->get(looked->bytes, looked->len, key, value), expected);
        check_value(shape, numbers[index], value);
        memset(value, FILL, shape.value);
        STATUS(looked->calls->view_get(looked->view, key, value), expected);
        check_value(shape, numbers[index], value);
    }
}

/* What was found of the first so many numbers. */
static void check_found(struct shape shape, const uint8_t *values, const uint8_t *found,
                        size_t count)
{
    for (size_t index = 0; index < count; index++) {
        EQUAL(found[index], is_present(numbers[index]));
        check_value(shape, numbers[index], values + index * shape.value);
    }
}

/* So many keys at once, with arrays that are as long. */
static void check_together(const struct looked *looked, size_t count)
{
    struct shape shape = looked->calls->shape;
    uint8_t *keys = numbers_of(count * shape.key);
    uint8_t *values = numbers_of(count * shape.value);
    uint8_t *found = bytes_of(count);

    for (size_t index = 0; index < count; index++)
        write_key(shape, numbers[index], keys + index * shape.key);
    STATUS(looked->calls->get_all(looked->bytes, looked->len, keys, count, values, count, found,
                                  count), ODHT_OK);
    check_found(shape, values, found, count);
    values = numbers_of(count * shape.value);
    memset(found, FILL, count);
    STATUS(looked->calls->view_get_all(looked->view, keys, count, values, count, found, count),
           ODHT_OK);
    check_found(shape, values, found, count);
}

/* Every number of keys up to all. */
static void look_up(const struct calls *calls)
{
    struct looked looked = looked_at(calls);

    check_alone(&looked);
    for (size_t count = 0; count <= KEYS; count++)
        check_together(&looked, count);
}

static void together_and_alone(void)
{
    for (size_t index = 0; index < SHAPES; index++) {
        size_t kept = buffer_count();

        in_case(all_shapes[index].name, index);
        look_up(&all_shapes[index]);
        drop_buffers_since(kept);
    }
}

static void other_lengths_are_refused(void)
{
    struct looked looked = looked_at(u64_u32_calls);
    uint64_t *keys = U64S(0, 2);
    uint32_t *values = U32S(7, 7);
    uint8_t *found = BYTES(7, 7);
    const uint8_t *bytes = looked.bytes;
    size_t len = looked.len;

    STATUS(odht_u64_u32_get_all(bytes, len, keys, 2, values, 1, found, 2), ODHT_BAD_LENGTHS);
    STATUS(odht_u64_u32_get_all(bytes, len, keys, 2, values, 2, found, 1), ODHT_BAD_LENGTHS);
    STATUS(odht_u64_u32_get_all(bytes, len, keys, 1, values, 2, found, 2), ODHT_BAD_LENGTHS);
    STATUS(odht_u64_u32_get_all(bytes, 31, keys, 1, values, 2, found, 2), ODHT_BAD_LENGTHS);
    SAME_BYTES(values, ((const uint32_t[]){ 7, 7 }), 8);
    ALL_BYTES(found, 2, 7);
}

const struct test lookup_tests[] = {
    TEST(together_and_alone),
    TEST(other_lengths_are_refused),
    END_OF_TESTS
};
