/* A table of three pairs, and changes that cause each error. */
#include "spoiled.h"

#include <string.h>

#include "buffers.h"
#include "keys.h"

enum { SLOTS = 16, PAIRS = 3 };

/* The slots of the pairs, their tags, their numbers where numbers are hashed and else, and their values. */
static const struct pair {
    size_t slot;
    uint8_t tag;
    uint32_t number;
    uint32_t hash;
    uint32_t value;
} pairs[PAIRS] = {
    { 5, 0x13, 1, 0x26000005, 2 },
    { 9, 0x61, 5, 0xc2000009, 6 },
    { 15, 0x3a, 3, 0x7400000f, 4 },
};

const struct spoiling spoilings[SPOILINGS] = {
    { ODHT_TOO_SHORT, true, CUT_TO_31, { { END, 0, 0 } } },
    { ODHT_WRONG_TAG, true, 0, { { HEADER, 0, 'o' } } },
    { ODHT_WRONG_TAG, true, 0, { { HEADER, 3, 't' } } },
    /* the little-endian number 2 */
    { ODHT_WRONG_VERSION, true, 0, { { HEADER, 24, 2 }, { HEADER, 27, 0 } } },
    { ODHT_WRONG_VERSION, true, 0, { { HEADER, 27, 1 } } },
    { ODHT_WRONG_SIZE, true, 0, { { HEADER, 4, 2 } } },
    { ODHT_WRONG_SIZE, true, 0, { { HEADER, 5, 99 } } },
    { ODHT_WRONG_SIZE, true, 0, { { HEADER, 6, 99 } } },
    { ODHT_WRONG_SIZE, true, 0, { { HEADER, 7, 31 } } },
    { ODHT_SLOT_COUNT_NOT_POWER_OF_TWO, true, 0, { { HEADER, 16, 24 } } },
    { ODHT_SLOT_COUNT_NOT_POWER_OF_TWO, true, 0, { { HEADER, 16, 0 } } },
    { ODHT_SLOT_COUNT_TOO_SMALL, true, 0, { { HEADER, 16, 8 } } },
    { ODHT_WRONG_LENGTH, true, 1, { { END, 0, 0 } } },
    { ODHT_WRONG_LENGTH, true, 0, { { HEADER, 16, 32 } } },
    /* 2^63 slots, whose length in bytes passes 2^64 */
    { ODHT_WRONG_LENGTH, true, 0, { { HEADER, 16, 0 }, { HEADER, 23, 128 } } },
    { ODHT_NON_ZERO_EMPTY, true, 0, { { ENTRY, 0, 7 } } },
    { ODHT_CONTROL_MISMATCH, true, 0, { { CONTROL, 5, 0x14 }, { MIRROR, 5, 0x14 } } },
    /* 654, where one percent is 655 */
    { ODHT_LOAD_FACTOR_TOO_SMALL, false, 0, { { HEADER, 28, 0x8e }, { HEADER, 29, 2 } } },
    { ODHT_NON_ZERO_PADDING, false, 0, { { HEADER, 30, 1 } } },
    { ODHT_NON_ZERO_EMPTY, false, 0, { { ENTRY, 10, 7 } } },
    { ODHT_BAD_FREE_CONTROL, false, 0, { { CONTROL, 11, 128 }, { MIRROR, 11, 128 } } },
    { ODHT_CONTROL_MISMATCH, false, 0, { { CONTROL, 15, 0x3b }, { MIRROR, 15, 0x3b } } },
    { ODHT_MIRROR_MISMATCH, false, 0, { { MIRROR, 0, 0 } } },
    { ODHT_WRONG_ITEM_COUNT, false, 0, { { HEADER, 8, 4 } } },
    { ODHT_WRONG_ITEM_COUNT, false, 0, { { HEADER, 15, 1 } } },
    /* 655, and 16 * 655 is below 65536 */
    { ODHT_TOO_MANY_ITEMS, false, 0, { { HEADER, 28, 0x8f }, { HEADER, 29, 2 } } },
    { ODHT_UNREACHABLE, false, 0, { { OTHER_HOME, 5, 0 } } },
};

/* Where the control bytes begin. */
static size_t controls_at(struct shape shape)
{
    return 32 + SLOTS * (shape.key + shape.value);
}

size_t three_pairs_len(struct shape shape)
{
    return controls_at(shape) + SLOTS + 16;
}

/* The number of a pair's key. */
static uint32_t number_of(struct shape shape, const struct pair *pair)
{
    return shape.hash == FX ? pair->number : pair->hash;
}

static void write_pair(struct shape shape, uint8_t *bytes, const struct pair *pair)
{
    uint8_t *entry = bytes + 32 + pair->slot * (shape.key + shape.value);

    write_key(shape, number_of(shape, pair), entry);
    write_value(shape, pair->value, entry + shape.key);
    bytes[controls_at(shape) + pair->slot] = pair->tag;
    bytes[controls_at(shape) + SLOTS + pair->slot] = pair->tag;
}

void write_three_pairs(struct shape shape, uint8_t *bytes)
{
    const uint8_t header[32] = {
        'O', 'D', 'H', 'T', 1, (uint8_t)shape.key, (uint8_t)shape.value, 32,
        3, 0, 0, 0, 0, 0, 0, 0, 16, 0, 0, 0, 0, 0, 0, 0, 0, 0, 0, 2, 0x32, 0xf3, 0, 0
    };

    memset(bytes, 0, three_pairs_len(shape));
    memcpy(bytes, header, sizeof header);
    memset(bytes + controls_at(shape), 255, SLOTS + 16);
    for (size_t index = 0; index < PAIRS; index++)
        write_pair(shape, bytes, &pairs[index]);
}

void *three_keys(struct shape shape)
{
    uint8_t *keys = numbers_of(PAIRS * shape.key);

    for (size_t index = 0; index < PAIRS; index++)
        write_key(shape, number_of(shape, &pairs[index]), keys + index * shape.key);
    return keys;
}

/*
 * The key 158 has the tag of the key 1 and another home, and so has the hash 0x26000006 beside 0x26000005: the lowest
 * byte is changed.
 */
static size_t home_at(struct shape shape)
{
    return shape.hash == FX ? 0 : shape.key - 4;
}

/* The offset of a changed byte. */
static size_t offset_of(struct shape shape, const struct edit *edit)
{
    size_t entry = 32 + edit->index * (shape.key + shape.value);

    switch (edit->part) {
    case ENTRY: return entry;
    case CONTROL: return controls_at(shape) + edit->index;
    case MIRROR: return controls_at(shape) + SLOTS + edit->index;
    case OTHER_HOME: return entry + home_at(shape);
    default: return edit->index;
    }
}

size_t spoil(struct shape shape, uint8_t *bytes, const struct spoiling *spoiling)
{
    const struct edit *edit = spoiling->edits;

    for (; edit->part != END; edit++) {
        uint8_t other = shape.hash == FX ? 158 : 6;
        bytes[offset_of(shape, edit)] = edit->part == OTHER_HOME ? other : edit->byte;
    }
    return spoiling->cut == CUT_TO_31 ? 31 : three_pairs_len(shape) - spoiling->cut;
}

/* Whether a list of changes has one at this offset. */
static bool changes(struct shape shape, const struct edit *edit, size_t offset)
{
    for (; edit->part != END; edit++)
        if (offset_of(shape, edit) == offset)
            return true;
    return false;
}

bool are_in_conflict(struct shape shape, const struct spoiling *left, const struct spoiling *right)
{
    const struct edit *edit = left->edits;

    for (; edit->part != END; edit++)
        if (changes(shape, right->edits, offset_of(shape, edit)))
            return true;
    return left->cut != 0 && right->cut != 0;
}
