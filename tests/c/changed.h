/* Tables that the library made, with changed bytes. The lists of changes are those of crates/odht_tests. */
#ifndef CHANGED_H
#define CHANGED_H

#include <stddef.h>
#include <stdint.h>

#include "calls.h"
#include "random.h"
#include "reading.h"

/* The bytes of a table, which are changed. */
struct changed {
    const struct calls *calls;
    uint8_t *bytes;
    size_t len;
    size_t slots;
};

/* Makes a table of `slots` slots at 87 percent, with `inserts` inserts of keys and values that look random. */
struct changed made_table(const struct calls *calls, size_t slots, size_t maximum, size_t inserts,
                          struct random *random);

/* Returns the bytes in the form that the second reading takes. */
struct reading reading_of(const struct changed *changed);

/* Writes one byte, if there is one at the offset. */
void write_byte(struct changed *changed, size_t at, uint8_t byte);

#endif
