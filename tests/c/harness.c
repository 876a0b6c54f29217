/* Tests of the test tools: a buffer's guard pages fault, and the generator is that of crates/odht_tests. */
#include <stdint.h>
#include <unistd.h>

#include "buffers.h"
#include "random.h"
#include "subjects.h"

/* Whether the system reads a byte there: it does not fault, but says so. */
static bool is_readable(const uint8_t *byte)
{
    int ends[2];
    bool answer;

    HOLDS(pipe(ends) == 0);
    answer = write(ends[1], byte, 1) == 1;
    close(ends[0]);
    close(ends[1]);
    return answer;
}

/* The same for a byte that it writes. */
static bool is_writable(uint8_t *byte)
{
    int ends[2];
    bool answer;

    HOLDS(pipe(ends) == 0);
    answer = write(ends[1], "x", 1) == 1 && read(ends[0], byte, 1) == 1;
    close(ends[0]);
    close(ends[1]);
    return answer;
}

/* One after the other, as some take the pages of those before. */
static void what_is_beside_a_buffer_faults(void)
{
    for (size_t len = 0; len < 40; len++) {
        size_t kept = buffer_count();
        const uint8_t *bytes = bytes_of(len);

        in_case("length", len);
        EQUAL(is_readable(bytes + len), placement() != BEFORE_GUARD);
        EQUAL(is_readable(bytes - 1), placement() != BEHIND_GUARD);
        if (placement() == ODD_ADDRESS)
            EQUAL((uintptr_t)bytes % 2, 1);
        drop_buffers_since(kept);
    }
}

static void numbers_are_aligned(void)
{
    EQUAL((uintptr_t)U64S(1, 2) % 8, 0);
    EQUAL((uintptr_t)SIZES(1) % 8, 0);
    EQUAL((uintptr_t)U32S(1, 2, 3) % 4, 0);
    HOLDS(!is_readable((const uint8_t *)(U32S(1, 2, 3) + 3)) || placement() != BEFORE_GUARD);
}

static void a_frozen_buffer_cannot_be_written(void)
{
    uint8_t *bytes = bytes_of(10);

    HOLDS(is_writable(bytes));
    freeze(bytes);
    HOLDS(!is_writable(bytes));
    HOLDS(is_readable(bytes));
}

/* The bytes come from a second computation of the sequence: three keys of two bytes with values of four. */
static void lists_that_look_random(void)
{
    static const uint8_t expected[] = {
        108, 130, 165, 98, 203, 128, 141, 16, 214, 50, 190, 137, 200, 81, 62, 191, 108, 146
    };
    struct random random = { 1 };
    uint8_t bytes[sizeof expected];

    random_bytes(&random, bytes, sizeof bytes);
    SAME_BYTES(bytes, expected, sizeof expected);
}

const struct test harness_tests[] = {
    TEST(what_is_beside_a_buffer_faults),
    TEST(numbers_are_aligned),
    TEST(a_frozen_buffer_cannot_be_written),
    TEST(lists_that_look_random),
    END_OF_TESTS
};
