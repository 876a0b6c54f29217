/*
 * The frame: what calls may return and change on bytes whose header and length fit, valid or not. docs/FORMAT.md lists
 * it under "Accepted but invalid bytes". Each assertion uses the second reading.
 */
#ifndef FRAME_H
#define FRAME_H

#include <stddef.h>
#include <stdint.h>

#include "calls.h"
#include "reading.h"

/* The number of times that each case came. */
struct cases {
    size_t tried;
    size_t accepted;
    size_t overwritten;
    size_t added;
    size_t added_over_an_occupied_slot;
    size_t full_by_count;
    size_t full_by_slots;
    size_t found_in_a_free_slot;
    size_t missed;
    size_t all_inserted;
    size_t some_inserted;
    size_t grown;
};

/* Asserts that each case came. */
void check_each_case(const struct cases *cases);

/* The maximum length in bytes and the maximum number of slots of these tables. */
enum { FRAME_BYTES = 2304, FRAME_SLOTS = 32 };

/* Asserts that the calls that read an opened table keep to the frame, and write nothing to the table. */
void check_reads(const struct calls *calls, const uint8_t *bytes, size_t len, struct cases *cases);

/* Asserts that an insert keeps to the frame. */
void check_insert(const struct calls *calls, uint8_t *bytes, size_t len, const void *key,
                  const void *value, struct cases *cases);

/* Asserts that the returned number of pairs was inserted: all, or those up to the first FULL. */
void check_insert_all(const struct calls *calls, uint8_t *bytes, size_t len, const void *keys,
                      const void *values, size_t count, struct cases *cases);

#endif
