/*
 * The second writing of tables, an independent one from docs/FORMAT.md. It places pairs slot by slot, without groups.
 * It shares no code with the library.
 */
#ifndef PLACING_H
#define PLACING_H

#include <stdbool.h>
#include <stddef.h>
#include <stdint.h>

#include "calls.h"
#include "reading.h"

/* Returns the load factor of a percentage. */
uint64_t factor_of_percent(uint8_t percent);

/* Returns the least number of slots for `items` items at a load factor, or 0 if there is none. */
size_t slots_for(uint64_t items, uint64_t factor);

/* Returns the status of a growth into a buffer of this length. If the growth computes a length, writes it to `len`. */
uint32_t growth_answer(const struct reading *table, size_t out_len, size_t *len);

/* Writes an empty table over all of its bytes. */
void place_nothing(uint8_t *bytes, struct shape shape, size_t slots, uint64_t factor);

/* Inserts a pair, or replaces the value, in a table with a free slot. It ignores the maximum. */
void place_pair(uint8_t *bytes, size_t len, struct shape shape, const uint8_t *key,
                const uint8_t *value);

/* Inserts the pairs of a table, in slot order, into an empty one. */
void place_all(uint8_t *bytes, size_t len, const struct reading *table);

/*
 * Works like place_pair, but grows a table that is at its maximum if the key is new: into `spare`, and then back. Both
 * have room for the grown table. Returns the length of the table.
 */
size_t place_growing(uint8_t *bytes, size_t len, uint8_t *spare, struct shape shape,
                     const uint8_t *key, const uint8_t *value);

#endif
