/*
 * The calls that allocate, with each allocation failing in turn, and all other calls with every allocation failing. A
 * growing build allocates once for its first table, and once for each growth: docs/FORMAT.md, "Growth".
 */
#include <stdbool.h>
#include <stdint.h>
#include <stdlib.h>

#include "buffers.h"
#include "calls.h"
#include "keys.h"
#include "layouts.h"
#include "odht.h"
#include "requests.h"
#include "subjects.h"

/* As many items as 64 slots take at 87 percent, and the most bytes of a table of 64 slots: keys of 32, values of 8. */
enum { MOST_ITEMS = 55, MOST_BYTES = 32 + 64 * 64 + 64 + 16 };

/* The pairs of a build, by the call of a shape or by that for any lengths, and what it writes. */
struct build {
    const struct calls *calls;
    bool any;
    void *keys;
    void *values;
    size_t items;
    uint8_t *out;
    size_t *len;
};

/* The numbers from 0 on as keys, and room for the table. */
static struct build build_of(const struct calls *calls, size_t items)
{
    return (struct build){
        .calls = calls,
        .keys = counted_keys(calls->shape, items),
        .values = counted_values(calls->shape, items),
        .items = items,
        .out = bytes_of(MOST_BYTES),
        .len = SIZES(99),
    };
}

/* Builds a growing table, where the request with this number fails. */
static uint32_t build_growing(const struct build *build, size_t failing)
{
    struct shape shape = build->calls->shape;
    odht_layout layout = layout_of(shape);

    count_requests(failing);
    if (build->any)
        return odht_any_build_growing(&layout, build->items, build->keys, build->items * shape.key,
                                      build->values, build->items * shape.value, build->out,
                                      MOST_BYTES, build->len);
    return build->calls->build_growing(build->keys, build->items, build->values, build->items,
                                       build->out, MOST_BYTES, build->len);
}

/* Asserts a table of all items. */
static void check_built(const struct build *build)
{
    size_t *count = SIZES(99);

    STATUS(build->calls->check(build->out, *build->len), ODHT_OK);
    STATUS(build->calls->len(build->out, *build->len, count), ODHT_OK);
    EQUAL(*count, build->items);
}

/* One request fails: nothing is written, nothing is kept, and the same build then goes well. */
static void check_refused_build(const struct build *build, size_t failing)
{
    size_t kept = blocks_in_use();

    STATUS(build_growing(build, failing), ODHT_MEMORY);
    EQUAL(requests(), failing);
    EQUAL(blocks_in_use(), kept);
    EQUAL(*build->len, 99);
    ALL_BYTES(build->out, MOST_BYTES, FILL);
}

/* Each of so many requests fails in turn, and there is no more. */
static void check_requests_by(const struct calls *calls, bool any, size_t items, size_t expected)
{
    struct build build = build_of(calls, items);
    size_t kept = blocks_in_use();

    build.any = any;
    for (size_t failing = 1; failing <= expected; failing++)
        check_refused_build(&build, failing);
    STATUS(build_growing(&build, expected + 1), ODHT_OK);
    EQUAL(requests(), expected);
    EQUAL(blocks_in_use(), kept);
    check_built(&build);
}

static void check_requests(const struct calls *calls, size_t items, size_t expected)
{
    check_requests_by(calls, false, items, expected);
    check_requests_by(calls, true, items, expected);
}

/* A table of 16 slots at 87 percent takes 13 items, one of 32 takes 27, and one of 64 takes 55. */
static void a_growing_build_has_a_request_for_each_table(void)
{
    for (size_t index = 0; index < SHAPES; index++) {
        in_case("shape", index);
        check_requests(&all_shapes[index], 0, 1);
        check_requests(&all_shapes[index], 13, 1);
        check_requests(&all_shapes[index], 14, 2);
        check_requests(&all_shapes[index], 27, 2);
        check_requests(&all_shapes[index], 28, 3);
        check_requests(&all_shapes[index], MOST_ITEMS, 3);
    }
}

/* 40 pairs take 64 slots. 40 pairs of 20 keys that come twice take 32. */
static void one_try_to_build_growing(void)
{
    struct build build = build_of(u64_u32_calls, 40);
    uint64_t *keys = build.keys;

    STATUS(build_growing(&build, NO_REQUEST), ODHT_OK);
    EQUAL(requests(), 3);
    for (size_t index = 20; index < 40; index++)
        keys[index] = index - 20;
    STATUS(build_growing(&build, NO_REQUEST), ODHT_OK);
    EQUAL(requests(), 2);
}

/* Arrays of different lengths are found before memory is requested, a short output after it. */
static void errors_of_a_growing_build(void)
{
    struct build build = build_of(u64_u32_calls, 3);

    refuse_requests();
    STATUS(odht_u64_u32_build_growing(build.keys, 3, build.values, 2, build.out, MOST_BYTES,
                                      build.len),
           ODHT_BAD_LENGTHS);
    EQUAL(requests(), 0);
    EQUAL(*build.len, 99);
    STATUS(odht_u64_u32_build_growing(build.keys, 3, build.values, 3, build.out, 255, build.len),
           ODHT_MEMORY);
    EQUAL(*build.len, 99);
    count_requests(NO_REQUEST);
    STATUS(odht_u64_u32_build_growing(build.keys, 3, build.values, 3, build.out, 255, build.len),
           ODHT_TOO_SMALL);
    EQUAL(requests(), 1);
    EQUAL(*build.len, 256);
    ALL_BYTES(build.out, MOST_BYTES, FILL);
}

/* The same of the call for any lengths, which also finds a bad layout before. */
static void errors_of_a_growing_build_of_any_lengths(void)
{
    static const odht_layout none = { 8, 4, 3 };
    struct build build = build_of(u64_u32_calls, 3);
    odht_layout layout = layout_of(build.calls->shape);

    refuse_requests();
    STATUS(odht_any_build_growing(&none, 3, build.keys, 24, build.values, 12, build.out,
                                  MOST_BYTES, build.len),
           ODHT_BAD_LAYOUT);
    STATUS(odht_any_build_growing(&layout, 3, build.keys, 24, build.values, 11, build.out,
                                  MOST_BYTES, build.len),
           ODHT_BAD_LENGTHS);
    EQUAL(requests(), 0);
    STATUS(odht_any_build_growing(&layout, 3, build.keys, 24, build.values, 12, build.out, 255,
                                  build.len),
           ODHT_MEMORY);
    EQUAL(*build.len, 99);
    count_requests(NO_REQUEST);
    STATUS(odht_any_build_growing(&layout, 3, build.keys, 24, build.values, 12, build.out, 255,
                                  build.len),
           ODHT_TOO_SMALL);
    EQUAL(requests(), 1);
    EQUAL(*build.len, 256);
    ALL_BYTES(build.out, MOST_BYTES, FILL);
}

/* A table of 16 slots that is at its maximum, made without memory. */
static size_t make_full(const struct calls *calls, uint8_t *bytes)
{
    size_t *len = SIZES(0);
    size_t *accepted = SIZES(0);
    void *keys = counted_keys(calls->shape, 14);
    void *values = counted_values(calls->shape, 14);

    STATUS(calls->bytes_needed(13, 87, len), ODHT_OK);
    STATUS(calls->init(bytes, *len, 13, 87), ODHT_OK);
    STATUS(calls->insert_all(bytes, *len, keys, 14, values, 14, accepted), ODHT_FULL);
    EQUAL(*accepted, 13);
    STATUS(calls->insert(bytes, *len, keys, values, numbers_of(calls->shape.value)),
           ODHT_REPLACED);
    STATUS(
        calls->insert(bytes, *len, (uint8_t *)keys + 13 * calls->shape.key, values,
                      numbers_of(calls->shape.value)),
        ODHT_FULL);
    return *len;
}

/* The calls that read a table, which has the keys of the numbers from 0 to 12. */
static void read_full(const struct calls *calls, const uint8_t *bytes, size_t len)
{
    void *keys = counted_keys(calls->shape, 13);
    void *values = numbers_of(13 * calls->shape.value);
    uint8_t *found = bytes_of(13);
    size_t *slots = numbers_of(13 * sizeof *slots);
    odht_view *view = view_of_nothing();

    STATUS(calls->open(bytes, len), ODHT_OK);
    STATUS(calls->check(bytes, len), ODHT_OK);
    STATUS(calls->len(bytes, len, slots), ODHT_OK);
    STATUS(calls->sizes(bytes, len, slots, slots + 1, found), ODHT_OK);
    STATUS(calls->get(bytes, len, keys, values), ODHT_OK);
    STATUS(calls->get_all(bytes, len, keys, 13, values, 13, found, 13), ODHT_OK);
    STATUS(calls->walk(bytes, len, SIZES(0), keys, 13, values, 13, slots), ODHT_OK);
    EQUAL(slots[0], 13);
    STATUS(calls->insert_order(bytes, len, slots, 13), ODHT_OK);
    STATUS(calls->open_view(bytes, len, view), ODHT_OK);
    STATUS(calls->view_get(view, keys, values), ODHT_OK);
    STATUS(calls->view_get_all(view, keys, 13, values, 13, found, 13), ODHT_OK);
    EQUAL(calls->view_len(view), 13);
}

/* The view and its lookups by the calls for any lengths. */
static void view_full(const struct calls *calls, const uint8_t *bytes, size_t len)
{
    struct shape shape = calls->shape;
    odht_layout layout = layout_of(shape);
    const uint8_t *keys = counted_keys(shape, 13);
    uint8_t *values = bytes_of(13 * shape.value);
    odht_view *view = view_of_nothing();

    STATUS(odht_any_open_view(&layout, bytes, len, view), ODHT_OK);
    STATUS(odht_any_view_get(&layout, view, keys, shape.key, values, shape.value), ODHT_OK);
    STATUS(odht_any_view_contains(&layout, view, keys, shape.key), ODHT_OK);
    STATUS(odht_any_view_get_all(&layout, view, 13, keys, 13 * shape.key, values,
                                 13 * shape.value, bytes_of(13), 13),
           ODHT_OK);
    EQUAL(odht_any_view_len(view), 13);
}

/* A growth into the caller's bytes, and a build there. */
static void grow_and_build(const struct calls *calls, const uint8_t *bytes, size_t len)
{
    uint8_t *out = bytes_of(MOST_BYTES);
    size_t *made = SIZES(0);
    void *keys = counted_keys(calls->shape, MOST_ITEMS);
    void *values = counted_values(calls->shape, MOST_ITEMS);

    STATUS(calls->grow(bytes, len, out, MOST_BYTES, made), ODHT_OK);
    STATUS(calls->check(out, *made), ODHT_OK);
    STATUS(calls->build(keys, MOST_ITEMS, values, MOST_ITEMS, 87, out, MOST_BYTES, made), ODHT_OK);
    STATUS(calls->check(out, *made), ODHT_OK);
}

static void no_other_call_takes_memory(void)
{
    for (size_t index = 0; index < SHAPES; index++) {
        uint8_t *bytes = bytes_of(MOST_BYTES);
        size_t len;

        in_case("shape", index);
        refuse_requests();
        len = make_full(&all_shapes[index], bytes);
        read_full(&all_shapes[index], bytes, len);
        view_full(&all_shapes[index], bytes, len);
        grow_and_build(&all_shapes[index], bytes, len);
        EQUAL(requests(), 0);
    }
}

/* The counting itself: a request of this program is counted, fails in its turn, and is freed. */
static void requests_are_counted(void)
{
    size_t kept = blocks_in_use();
    void *volatile block;

    count_requests(2);
    block = malloc(1);
    HOLDS(block != NULL);
    EQUAL(blocks_in_use(), kept + 1);
    free(block);
    EQUAL(blocks_in_use(), kept);
    block = malloc(1);
    HOLDS(block == NULL);
    EQUAL(requests(), 2);
}

const struct test memory_tests[] = {
    TEST(requests_are_counted),
    TEST(a_growing_build_has_a_request_for_each_table),
    TEST(one_try_to_build_growing),
    TEST(errors_of_a_growing_build),
    TEST(errors_of_a_growing_build_of_any_lengths),
    TEST(no_other_call_takes_memory),
    END_OF_TESTS
};
