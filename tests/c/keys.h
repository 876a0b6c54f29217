/* Makes keys and values of a shape from numbers. */
#ifndef KEYS_H
#define KEYS_H

#include <stddef.h>
#include <stdint.h>

#include "calls.h"

/*
 * Writes the key of a number. The four bytes of the number, lowest first, are the bytes from which the hash is taken.
 * All other bytes are 0. With UN the hash of the key is the number.
 */
void write_key(struct shape shape, uint32_t number, void *key);

/* Returns the number of a key, read from the same bytes. */
uint32_t number_of_key(struct shape shape, const void *key);

/* Writes the value of a number. Its first bytes are those of the number, up to four. */
void write_value(struct shape shape, uint32_t number, void *value);

/* Makes arrays of the keys of the numbers from 0 on, and of values of ten times these numbers. */
void *counted_keys(struct shape shape, size_t count);
void *counted_values(struct shape shape, size_t count);

#endif
