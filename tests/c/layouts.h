/* Layouts of dynamic tables. */
#ifndef LAYOUTS_H
#define LAYOUTS_H

#include "calls.h"
#include "odht.h"
#include "random.h"

/* Returns the layout of a shape. */
odht_layout layout_of(struct shape shape);

/* Makes an empty table of sixteen slots, for `ITEMS` items at `PERCENT` percent. */
enum { ITEMS = 8, PERCENT = 60, SLOTS = 16 };
uint8_t *empty_table(odht_layout layout, size_t len);

/* Runs a test of each of many lengths, and of each hash function that takes keys of this length. */
void for_lengths(void (*one)(struct shape shape, struct random *random), uint64_t seed);

#endif
