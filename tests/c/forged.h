/*
 * Valid tables that are forged so that the whole check reads and compares much. Keys have 8 bytes, the last four of
 * which are the hash. Values are 32-bit numbers. The tables are made only from docs/FORMAT.md, slot by slot.
 */
#ifndef FORGED_H
#define FORGED_H

#include <stddef.h>
#include <stdint.h>

#include "calls.h"

/* A table, with the number of its slots, and the number of its items so far. */
struct forged {
    uint8_t *bytes;
    size_t len;
    size_t slots;
    uint64_t items;
};

/* Full at 87 percent. All keys have one hash, so each is compared with all keys before it. */
struct forged forge_one_hash(size_t slots);

/* Full at 87 percent. All keys have one home, and their tags cycle, so the check reads all groups before each key. */
struct forged forge_one_home(size_t slots);

/*
 * Full at 100 percent, which leaves one free slot for up to 65,536 slots. Several free slots are neighbours. The home
 * of each key is chosen for its slot, so that the key comes late in the probe order, but before each free slot.
 */
struct forged forge_few_free_slots(size_t slots);

/*
 * The longest search reads exactly `groups` groups, at most a sixteenth of the slots. To that end only few slots are
 * free. The home of each key is the one in whose probe order its slot comes last, but before each free slot. All keys
 * have one tag.
 */
struct forged forge_up_to(size_t slots, size_t groups);

#endif
