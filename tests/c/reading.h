/*
 * The second reading of a table's bytes, an independent one from docs/FORMAT.md. It shares no code with the library,
 * and uses only the numbers of the errors from odht.h. It reads slot by slot, without groups.
 */
#ifndef READING_H
#define READING_H

#include <stdbool.h>
#include <stddef.h>
#include <stdint.h>

#include "calls.h"

/* Bytes to read as a table of this shape. Bytes after their end read as 0. */
struct reading {
    const uint8_t *bytes;
    size_t len;
    struct shape shape;
};

/* Return the byte at an offset, and the number in the `count` bytes from there, the lowest first. */
uint8_t byte_at(const struct reading *table, size_t at);
uint64_t number_at(const struct reading *table, size_t at, size_t len);

/* Return the slot count, the item count and the load factor of the header. */
size_t slots_of(const struct reading *table);
uint64_t count_of(const struct reading *table);
uint64_t factor_of(const struct reading *table);

/* Returns the maximum number of items for the slot count and the load factor of the header. */
uint64_t maximum_of(const struct reading *table);

/* Return the offsets of the entry of a slot, and of its control byte. The mirror follows the last control byte. */
size_t entry_at(const struct reading *table, size_t slot);
size_t control_at(const struct reading *table, size_t slot);

/* Return the key and the value in the entry of a slot. */
const uint8_t *key_in(const struct reading *table, size_t slot);
const uint8_t *value_in(const struct reading *table, size_t slot);

/* Returns whether the control byte of a slot, not its mirror byte, marks it as occupied. */
bool is_occupied(const struct reading *table, size_t slot);

/* Returns the number of occupied slots. */
size_t occupied_in(const struct reading *table);

/* Return the hash of a key, and its tag: the seven highest of the 32 bits. */
uint32_t hash_of(struct shape shape, const uint8_t *key);
uint8_t tag_of(struct shape shape, const uint8_t *key);

/* Returns the slot at a position of the probe order of a hash, in a table of `slots` slots. */
size_t probe_slot(uint32_t hash, size_t slots, size_t position);

/* Returns the slot where a search for the key ends, which is free or holds the key. Without one, the slot count. */
size_t search_end(const struct reading *table, const uint8_t *key);

/* Returns the length in bytes of a table of `slots` slots, which fits 64 bits. */
size_t image_len(struct shape shape, size_t slots);

/*
 * Return the first error, or ODHT_OK, of these checks: of a table at the start of longer bytes; of header and length;
 * of opening, which also reads ten slots; of the whole check. The last one takes the result of the whole check as
 * `whole`, and adds the bound for searches, in groups.
 */
uint32_t front_error(const struct reading *table);
uint32_t header_error(const struct reading *table);
uint32_t opening_error(const struct reading *table);
uint32_t whole_error(const struct reading *table);
uint32_t within_error(const struct reading *table, uint32_t whole, size_t groups);

/* Returns the slot of this error of opening, or of the whole check with a bound of `groups` groups. For ODHT_OK, and
   for errors that are not in a slot, returns SIZE_MAX. */
size_t error_slot(const struct reading *table, uint32_t error, size_t groups);

#endif
