/* Opens a new table with each header byte set to each value. */
#include <stdint.h>
#include <string.h>

#include "buffers.h"
#include "counts.h"
#include "odht.h"
#include "subjects.h"

enum { LEN = 192, HEADER = 32 };

/* What opens bytes: a status, which is ODHT_OK where it accepts them. */
typedef uint32_t opening(const uint8_t *bytes);

static uint32_t by_open(const uint8_t *bytes)
{
    return odht_u32_u32_open(bytes, LEN);
}

/* The table is empty. */
static uint32_t by_get(const uint8_t *bytes)
{
    uint32_t status = odht_u32_u32_get(bytes, LEN, 1, NULL);

    return status == ODHT_ABSENT ? ODHT_OK : status;
}

/* It is full by a header that states more items than there may be. */
static uint32_t by_insert(const uint8_t *bytes)
{
    uint8_t copy[LEN];

    memcpy(copy, bytes, LEN);
    uint32_t status = odht_u32_u32_insert(copy, LEN, 1, 2, NULL);
    return status == ODHT_FULL ? ODHT_OK : status;
}

/* Opens the bytes with each value at this offset, and counts the results. */
static void count_values(struct counts *counts, opening *open, uint8_t *bytes, size_t at)
{
    uint8_t kept = bytes[at];

    for (unsigned value = 0; value < 256; value++) {
        bytes[at] = (uint8_t)value;
        count_status(counts, open(bytes));
    }
    bytes[at] = kept;
}

static void count_headers(opening *open)
{
    static const size_t expected[KINDS] = { 3092, 0, 1020, 1020, 1020, 2033, 4, 3 };
    struct counts counts = { { 0 } };
    uint8_t *bytes = bytes_of(LEN);

    STATUS(odht_u32_u32_init(bytes, LEN, 13, 87), ODHT_OK);
    for (size_t at = 0; at < HEADER; at++)
        count_values(&counts, open, bytes, at);
    check_counts(&counts, expected);
}

static void header_bytes(void)
{
    count_headers(by_open);
}

/* The calls for one key look at the header in their own way. */
static void header_bytes_by_get(void)
{
    count_headers(by_get);
}

static void header_bytes_by_insert(void)
{
    count_headers(by_insert);
}

/* Each length below that of the table, and some above it. What is cut off is not read: it is a page that faults. */
static void each_length_of_a_table(void)
{
    uint8_t *whole = bytes_of(LEN);

    STATUS(odht_u32_u32_init(whole, LEN, 13, 87), ODHT_OK);
    for (size_t len = 0; len < LEN; len++) {
        size_t kept = buffer_count();
        const uint8_t *cut = copy_of(whole, len);
        uint32_t expected = len < 32 ? ODHT_TOO_SHORT : ODHT_WRONG_LENGTH;

        in_case("length", len);
        STATUS(odht_u32_u32_open(cut, len), expected);
        STATUS(odht_u32_u32_check(cut, len), expected);
        STATUS(odht_u32_u32_get(cut, len, 1, NULL), expected);
        drop_buffers_since(kept);
    }
}

const struct test header_tests[] = {
    TEST(header_bytes),
    TEST(header_bytes_by_get),
    TEST(header_bytes_by_insert),
    TEST(each_length_of_a_table),
    END_OF_TESTS
};
