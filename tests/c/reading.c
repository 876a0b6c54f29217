/* The second reading of a table's bytes: the places of its parts. */
#include "reading.h"

#include <string.h>

enum { HEADER = 32, GROUP = 16, ITEM_COUNT = 8, SLOT_COUNT = 16, LOAD_FACTOR = 28 };

uint8_t byte_at(const struct reading *table, size_t at)
{
    return at < table->len ? table->bytes[at] : 0;
}

uint64_t number_at(const struct reading *table, size_t at, size_t len)
{
    uint64_t number = 0;

    if (at < table->len && len <= table->len - at) {
        memcpy(&number, table->bytes + at, len);
        return number;
    }
    for (size_t index = len; index > 0; index--)
        number = number * 256 + byte_at(table, at + index - 1);
    return number;
}

size_t slots_of(const struct reading *table)
{
    return number_at(table, SLOT_COUNT, 8);
}

uint64_t count_of(const struct reading *table)
{
    return number_at(table, ITEM_COUNT, 8);
}

uint64_t factor_of(const struct reading *table)
{
    return number_at(table, LOAD_FACTOR, 2);
}

uint64_t maximum_of(const struct reading *table)
{
    return slots_of(table) * factor_of(table) / 65536;
}

size_t entry_at(const struct reading *table, size_t slot)
{
    return HEADER + slot * (table->shape.key + table->shape.value);
}

size_t control_at(const struct reading *table, size_t slot)
{
    return entry_at(table, slots_of(table)) + slot;
}

const uint8_t *key_in(const struct reading *table, size_t slot)
{
    return table->bytes + entry_at(table, slot);
}

const uint8_t *value_in(const struct reading *table, size_t slot)
{
    return key_in(table, slot) + table->shape.key;
}

bool is_occupied(const struct reading *table, size_t slot)
{
    return byte_at(table, control_at(table, slot)) < 128;
}

size_t occupied_in(const struct reading *table)
{
    size_t occupied = 0;

    for (size_t slot = 0; slot < slots_of(table); slot++)
        occupied += is_occupied(table, slot);
    return occupied;
}

/* The number in so many bytes of a key, the lowest first. */
static uint64_t number_in(const uint8_t *key, size_t len)
{
    struct reading bytes = { key, len, { 0, 0, FX } };

    return number_at(&bytes, 0, len);
}

/* One piece of a key changes the state. */
static uint64_t fx_step(uint64_t state, uint64_t piece)
{
    return ((state << 5 | state >> 59) ^ piece) * UINT64_C(0x517cc1b727220a95);
}

/* The pieces are of 8 bytes, and of what is left of 4, 2 and 1. */
static uint32_t fx_hash(const uint8_t *key, size_t len)
{
    uint64_t state = 0;
    size_t piece = 8;

    while (len > 0) {
        if (len < piece) {
            piece /= 2;
            continue;
        }
        state = fx_step(state, number_in(key, piece));
        key += piece;
        len -= piece;
    }
    return (uint32_t)state;
}

static uint64_t turned(uint64_t number, int bits)
{
    return number << bits | number >> (64 - bits);
}

/* An accumulator of XXH64 after the number of eight bytes; from the state of none it is the number, mixed. */
static uint64_t xxh64_round(uint64_t accumulator, uint64_t number)
{
    return turned(accumulator + number * 0xc2b2ae3d27d4eb4f, 31) * 0x9e3779b185ebca87;
}

/* The state after the stripes of 32 bytes, and how many bytes these are. */
static uint64_t xxh64_stripes(const uint8_t *key, size_t len, size_t *done)
{
    static const uint64_t first[4] = { 0x60ea27eeadc0b5d6, 0xc2b2ae3d27d4eb4f, 0,
                                       0x61c8864e7a143579 };
    static const int bits[4] = { 1, 7, 12, 18 };
    uint64_t lanes[4], state = 0;

    memcpy(lanes, first, sizeof lanes);
    for (*done = 0; *done + 32 <= len; *done += 32)
        for (size_t lane = 0; lane < 4; lane++)
            lanes[lane] = xxh64_round(lanes[lane], number_in(key + *done + 8 * lane, 8));
    if (*done == 0)
        return 0x27d4eb2f165667c5;
    for (size_t lane = 0; lane < 4; lane++)
        state += turned(lanes[lane], bits[lane]);
    for (size_t lane = 0; lane < 4; lane++)
        state = (state ^ xxh64_round(0, lanes[lane])) * 0x9e3779b185ebca87 + 0x85ebca77c2b2ae63;
    return state;
}

/* The low half of XXH64 with seed 0. */
static uint32_t xxh64_hash(const uint8_t *key, size_t len)
{
    size_t at;
    uint64_t state = xxh64_stripes(key, len, &at) + len;

    for (; at + 8 <= len; at += 8)
        state = turned(state ^ xxh64_round(0, number_in(key + at, 8)), 27) * 0x9e3779b185ebca87
                + 0x85ebca77c2b2ae63;
    if (at + 4 <= len) {
        state = turned(state ^ number_in(key + at, 4) * 0x9e3779b185ebca87, 23)
                    * 0xc2b2ae3d27d4eb4f + 0x165667b19e3779f9;
        at += 4;
    }
    for (; at < len; at++)
        state = turned(state ^ (uint64_t)key[at] * 0x27d4eb2f165667c5, 11) * 0x9e3779b185ebca87;
    state = (state ^ state >> 33) * 0xc2b2ae3d27d4eb4f;
    state = (state ^ state >> 29) * 0x165667b19e3779f9;
    return (uint32_t)(state ^ state >> 32);
}

uint32_t hash_of(struct shape shape, const uint8_t *key)
{
    if (shape.hash == FX)
        return fx_hash(key, shape.key);
    if (shape.hash == XXH64)
        return xxh64_hash(key, shape.key);
    return (uint32_t)number_in(key + shape.key - 4, 4);
}

uint8_t tag_of(struct shape shape, const uint8_t *key)
{
    return (uint8_t)(hash_of(shape, key) / 33554432);
}

size_t probe_slot(uint32_t hash, size_t slots, size_t position)
{
    size_t group = position / GROUP;

    return (hash % slots + 8 * group * (group + 1) + position % GROUP) % slots;
}

size_t search_end(const struct reading *table, const uint8_t *key)
{
    uint32_t hash = hash_of(table->shape, key);
    size_t slots = slots_of(table);

    for (size_t position = 0; position < slots; position++) {
        size_t slot = probe_slot(hash, slots, position);
        if (!is_occupied(table, slot) || memcmp(key_in(table, slot), key, table->shape.key) == 0)
            return slot;
    }
    return slots;
}

size_t image_len(struct shape shape, size_t slots)
{
    return HEADER + slots * (shape.key + shape.value) + slots + GROUP;
}
