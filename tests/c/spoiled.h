/*
 * A table of three pairs in each shape, worked out by hand. For each error of bytes, changes of this table that cause
 * it, in the order in which the errors are checked.
 */
#ifndef SPOILED_H
#define SPOILED_H

#include <stdbool.h>
#include <stddef.h>
#include <stdint.h>

#include "calls.h"

/* The place of a changed byte. */
enum part {
    END,       /* nowhere: the changes end here */
    HEADER,    /* in the header */
    ENTRY,     /* in the entry of a slot */
    CONTROL,   /* the control byte of a slot */
    MIRROR,    /* the mirror of a slot */
    OTHER_HOME /* the byte of the key in slot 5 that gives it another home, and the same tag */
};

/* A change of one byte: its index is a slot, or the offset in the header. */
struct edit {
    enum part part;
    size_t index;
    uint8_t byte;
};

/* A way to spoil the table. */
struct spoiling {
    uint32_t error;      /* what the whole check returns */
    bool is_found_early; /* whether opening also returns it */
    size_t cut;          /* the number of bytes cut off at the end, or CUT_TO_31 */
    struct edit edits[4];
};

/* Only 31 bytes are left. */
#define CUT_TO_31 SIZE_MAX

/* The ways, in the order in which their errors are checked. */
enum { SPOILINGS = 27 };
extern const struct spoiling spoilings[SPOILINGS];

/* The length of the table in bytes. */
size_t three_pairs_len(struct shape shape);

/*
 * Writes the table: 16 slots at 95 percent, as in docs/FORMAT.md, "A worked example". In slots 5, 9 and 15 are keys
 * with the tags 0x13, 0x61 and 0x3a: the numbers 1, 5 and 3, or the keys with such hashes. The values are 2, 6 and 4.
 */
void write_three_pairs(struct shape shape, uint8_t *bytes);

/* Returns the keys of the table, in slot order. */
void *three_keys(struct shape shape);

/* Makes the changes in a table. Returns the number of bytes that are left. */
size_t spoil(struct shape shape, uint8_t *bytes, const struct spoiling *spoiling);

/* Returns whether two ways change the same byte, or both cut bytes off. */
bool are_in_conflict(struct shape shape, const struct spoiling *left,
                     const struct spoiling *right);

#endif
