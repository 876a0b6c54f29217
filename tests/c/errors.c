/*
 * Errors of bytes, in each shape: which call returns which error, which of two errors comes first, and that a call that
 * returns an error changes nothing.
 */
#include <stdint.h>
#include <string.h>

#include "buffers.h"
#include "calls.h"
#include "odht.h"
#include "spoiled.h"
#include "subjects.h"

/* The bytes of one call after the other, and what a call may write. */
struct spoiled {
    const struct calls *calls;
    uint8_t *bytes;
    size_t len;
    void *keys;
    void *new_values;
    void *values;
    uint8_t *found;
    size_t *numbers;
    uint8_t *out;
};

enum { KEYS = 3, OUT_LEN = 2400 };

/* The table with up to two ways to spoil it, right before a page that faults where buffers are so. */
static struct spoiled spoiled_table(const struct calls *calls, const struct spoiling *first,
                                    const struct spoiling *second)
{
    size_t whole = three_pairs_len(calls->shape);
    uint8_t *scratch = bytes_of(whole);
    struct spoiled spoiled = { .calls = calls, .keys = three_keys(calls->shape) };

    write_three_pairs(calls->shape, scratch);
    spoiled.len = spoil(calls->shape, scratch, first);
    if (second != NULL) {
        size_t len = spoil(calls->shape, scratch, second);
        spoiled.len = len < spoiled.len ? len : spoiled.len;
    }
    spoiled.bytes = copy_of(scratch, spoiled.len);
    spoiled.new_values = numbers_of(KEYS * calls->shape.value);
    spoiled.values = numbers_of(KEYS * calls->shape.value);
    spoiled.found = bytes_of(KEYS);
    spoiled.numbers = numbers_of(KEYS * sizeof *spoiled.numbers);
    spoiled.out = bytes_of(OUT_LEN);
    return spoiled;
}

/* Asserts that no call has written anything. */
static void check_nothing_written(const struct spoiled *spoiled)
{
    ALL_BYTES(spoiled->values, KEYS * spoiled->calls->shape.value, FILL);
    ALL_BYTES(spoiled->found, KEYS, FILL);
    ALL_BYTES(spoiled->numbers, KEYS * sizeof *spoiled->numbers, FILL);
    ALL_BYTES(spoiled->out, OUT_LEN, FILL);
}

/* The calls that look at header and length alone all return this error. The bytes are read-only. */
static void check_header_error(const struct spoiled *spoiled, uint32_t error)
{
    const struct calls *calls = spoiled->calls;
    const uint8_t *bytes = spoiled->bytes;
    size_t len = spoiled->len;
    size_t *numbers = spoiled->numbers;

    STATUS(calls->len(bytes, len, numbers), error);
    STATUS(calls->sizes(bytes, len, numbers, numbers + 1, spoiled->found), error);
    STATUS(calls->get(bytes, len, spoiled->keys, spoiled->values), error);
    STATUS(calls->get_all(bytes, len, spoiled->keys, KEYS, spoiled->values, KEYS, spoiled->found,
                          KEYS),
           error);
    STATUS(
        calls->walk(bytes, len, numbers, spoiled->keys, KEYS, spoiled->values, KEYS, numbers + 1),
        error);
    STATUS(calls->grow(bytes, len, spoiled->out, OUT_LEN, numbers), error);
    STATUS(calls->insert(spoiled->bytes, len, spoiled->keys, spoiled->new_values, spoiled->values),
           error);
    STATUS(calls->insert_all(spoiled->bytes, len, spoiled->keys, KEYS, spoiled->new_values, KEYS,
                             numbers), error);
}

/* Opening returns this, and leaves the view where it is an error. */
static void check_opening(const struct spoiled *spoiled, uint32_t expected)
{
    odht_view *view = view_of_nothing();

    STATUS(spoiled->calls->open(spoiled->bytes, spoiled->len), expected);
    STATUS(spoiled->calls->open_view(spoiled->bytes, spoiled->len, view), expected);
    EQUAL(view->len, expected == ODHT_OK ? spoiled->len : 0);
}

/* The whole check, and the call for an order of inserts, which makes it, return this error. */
static void check_whole_check(const struct spoiled *spoiled, uint32_t error)
{
    STATUS(spoiled->calls->check(spoiled->bytes, spoiled->len), error);
    STATUS(spoiled->calls->insert_order(spoiled->bytes, spoiled->len, spoiled->numbers, KEYS),
           error);
}

/* Asserts what all calls return where these bytes have this first error. */
static void check_error(const struct spoiled *spoiled, const struct spoiling *first)
{
    freeze(spoiled->bytes);
    if (first->error <= ODHT_WRONG_LENGTH)
        check_header_error(spoiled, first->error);
    if (first->error == ODHT_LOAD_FACTOR_TOO_SMALL)
        STATUS(spoiled->calls->grow(spoiled->bytes, spoiled->len, spoiled->out, OUT_LEN,
                                    spoiled->numbers), first->error);
    check_opening(spoiled, first->is_found_early ? first->error : ODHT_OK);
    check_whole_check(spoiled, first->error);
    check_nothing_written(spoiled);
}

/* The calls that read a table by header and length alone do so where something else is wrong. */
static void check_no_header_error(const struct spoiled *spoiled)
{
    size_t *numbers = spoiled->numbers;

    STATUS(spoiled->calls->len(spoiled->bytes, spoiled->len, numbers), ODHT_OK);
    STATUS(
        spoiled->calls->sizes(spoiled->bytes, spoiled->len, numbers, numbers + 1, spoiled->found),
        ODHT_OK);
}

static void check_each_error(const struct calls *calls)
{
    for (size_t row = 0; row < SPOILINGS; row++) {
        size_t kept = buffer_count();
        struct spoiled spoiled = spoiled_table(calls, &spoilings[row], NULL);

        in_case(calls->name, row);
        check_error(&spoiled, &spoilings[row]);
        if (spoilings[row].error > ODHT_WRONG_LENGTH)
            check_no_header_error(&spoiled);
        drop_buffers_since(kept);
    }
}

static void each_error_in_each_shape(void)
{
    for (size_t index = 0; index < SHAPES; index++)
        check_each_error(&all_shapes[index]);
}

/* The table itself, in each shape, is valid. */
static void the_table_of_three_pairs_is_valid(void)
{
    for (size_t index = 0; index < SHAPES; index++) {
        const struct calls *calls = &all_shapes[index];
        size_t len = three_pairs_len(calls->shape);
        uint8_t *bytes = bytes_of(len);
        uint8_t *found = bytes_of(KEYS);

        in_case(calls->name, index);
        write_three_pairs(calls->shape, bytes);
        STATUS(calls->check(bytes, len), ODHT_OK);
        STATUS(calls->get_all(bytes, len, three_keys(calls->shape), KEYS,
                              numbers_of(KEYS * calls->shape.value), KEYS, found, KEYS), ODHT_OK);
        ALL_BYTES(found, KEYS, 1);
    }
}

/* A table with the errors of two ways returns that of the way that stands first. */
static void check_pair_of_errors(const struct calls *calls, size_t first, size_t second)
{
    size_t kept = buffer_count();
    struct spoiled spoiled;

    if (are_in_conflict(calls->shape, &spoilings[first], &spoilings[second]))
        return;
    in_case(calls->name, 100 * first + second);
    spoiled = spoiled_table(calls, &spoilings[first], &spoilings[second]);
    check_error(&spoiled, &spoilings[first]);
    drop_buffers_since(kept);
}

static void check_pairs_of_errors(const struct calls *calls)
{
    for (size_t pair = 0; pair < SPOILINGS * SPOILINGS; pair++)
        if (pair / SPOILINGS < pair % SPOILINGS)
            check_pair_of_errors(calls, pair / SPOILINGS, pair % SPOILINGS);
}

static void of_two_errors_the_first_is_returned(void)
{
    for (size_t index = 0; index < SHAPES; index++)
        check_pairs_of_errors(&all_shapes[index]);
}

const struct test error_tests[] = {
    TEST(the_table_of_three_pairs_is_valid),
    TEST(each_error_in_each_shape),
    TEST(of_two_errors_the_first_is_returned),
    END_OF_TESTS
};
