/* Tables that were worked out by hand from docs/FORMAT.md, and changes of their bytes. */
#ifndef TABLES_H
#define TABLES_H

#include <stddef.h>
#include <stdint.h>

/* A byte at an offset. */
struct change {
    size_t at;
    uint8_t byte;
};

/* A list of changes has at most this length, and ends with one at offset NOWHERE. */
enum { CHANGES = 12 };
#define NOWHERE SIZE_MAX

/* A change of no byte, and the changes of a row with their end. */
#define END_OF_CHANGES { NOWHERE, 0 }

/* Writes the byte of each change. */
void change(uint8_t *bytes, const struct change *changes);

/*
 * The 256 bytes of docs/FORMAT.md, "A worked example": 16 slots at 95 percent, 1 to 2 in slot 5, 5 to 6 in slot 9 and
 * 3 to 4 in slot 15.
 */
uint8_t *number_table(void);

/*
 * 384 bytes: 16 slots at 50 percent with keys of 16 bytes. All bytes of the key in slot 2 are 2 and of that in slot 7
 * are 7, so their hashes are 0x02020202 and 0x07070707, and their tags 1 and 3. The values are 200 and 100.
 */
uint8_t *byte_table(void);

#endif
