/* Forged tables, for which the whole check reads and compares much. */
#include "forged.h"

#include <stdbool.h>
#include <string.h>

#include "buffers.h"
#include "placing.h"
#include "reading.h"

enum { HEADER = 32, KEY = 8, ENTRY = 12, GROUP = 16, PARTS = 16 };
enum { HOME = 5, TAGS = 128, TAG = 1 << 25 };

static const struct shape shape = { KEY, ENTRY - KEY, UN };

/* A table without items, whose slots may be occupied up to a percentage. */
static struct forged forge_nothing(size_t slots, uint8_t percent)
{
    size_t len = image_len(shape, slots);
    struct forged table = { bytes_of(len), len, slots, 0 };

    place_nothing(table.bytes, shape, slots, factor_of_percent(percent));
    return table;
}

/* Writes a key of its own with this hash into a free slot. */
static void fill_slot(struct forged *table, size_t slot, uint32_t hash)
{
    uint8_t *entry = table->bytes + HEADER + slot * ENTRY;
    uint8_t *control = table->bytes + HEADER + table->slots * ENTRY + slot;
    uint32_t number = (uint32_t)slot + 1;

    memcpy(entry, &number, 4);
    memcpy(entry + 4, &hash, 4);
    *control = (uint8_t)(hash / TAG);
    if (slot < GROUP)
        control[table->slots] = *control;
    table->items++;
}

/* Writes how many items there are. */
static struct forged counted(struct forged table)
{
    memcpy(table.bytes + 8, &table.items, 8);
    return table;
}

static size_t maximum_in(const struct forged *table)
{
    struct reading reading = { table->bytes, table->len, shape };

    return maximum_of(&reading);
}

/* Fills a table at 87 percent from one home on: the tags are so many, in turn. */
static struct forged forge_from_one_home(size_t slots, uint32_t tags)
{
    struct forged table = forge_nothing(slots, 87);
    size_t items = maximum_in(&table);

    for (size_t position = 0; position < items; position++)
        fill_slot(&table, probe_slot(HOME, slots, position),
                  HOME + (uint32_t)(position % tags) * TAG);
    return counted(table);
}

struct forged forge_one_hash(size_t slots)
{
    return forge_from_one_home(slots, 1);
}

struct forged forge_one_home(size_t slots)
{
    return forge_from_one_home(slots, TAGS);
}

/* The free slots, which are neighbours. Group group_behind[i] of a probe order begins 16 * i slots after its home. */
struct free_slots {
    size_t first;
    size_t count;
    const uint32_t *group_behind;
};

static const uint32_t *groups_behind(size_t slots)
{
    size_t groups = slots / GROUP;
    uint32_t *behind = numbers_of(groups * sizeof *behind);

    for (size_t group = 0; group < groups; group++)
        behind[group * (group + 1) / 2 % groups] = (uint32_t)group;
    return behind;
}

/* Returns whether all free slots are in later groups of a home's probe order than this one. */
static bool is_before(const struct free_slots *free, size_t slots, size_t home, size_t group)
{
    size_t groups = slots / GROUP;
    size_t first = (free->first + slots - home) % slots / GROUP;
    size_t last = (free->first + free->count - 1 + slots - home) % slots / GROUP;
    size_t more = (last + groups - first) % groups;

    for (size_t index = 0; index <= more; index++)
        if (free->group_behind[(first + index) % groups] <= group)
            return false;
    return true;
}

/* Returns a home in whose probe order the slot begins a late group. It tries fifteen, and else returns the slot. */
static size_t late_home(const struct free_slots *free, size_t slots, size_t slot)
{
    for (size_t part = PARTS - 1; part > 0; part--) {
        size_t group = part * (slots / GROUP) / PARTS;
        size_t home = (slot + slots - 8 * group * (group + 1) % slots) % slots;

        if (is_before(free, slots, home, group))
            return home;
    }
    return slot;
}

struct forged forge_few_free_slots(size_t slots)
{
    struct forged table = forge_nothing(slots, 100);
    struct free_slots free = { slots / 3, slots - maximum_in(&table), groups_behind(slots) };

    for (size_t slot = 0; slot < slots; slot++)
        if (slot < free.first || slot >= free.first + free.count)
            fill_slot(&table, slot, (uint32_t)late_home(&free, slots, slot));
    return counted(table);
}

/* Of each home the position of the first free slot, among the first positions of its probe order. */
struct bounds {
    size_t slots;
    size_t positions;
    uint32_t *first_free;
};

/* The home in whose probe order a slot is at this position. */
static size_t home_of(size_t slots, size_t slot, size_t position)
{
    return (slot + slots - probe_slot(0, slots, position)) % slots;
}

static void free_slot(struct bounds *bounds, size_t slot)
{
    for (size_t position = 0; position < bounds->positions; position++) {
        size_t home = home_of(bounds->slots, slot, position);

        if (bounds->first_free[home] > position)
            bounds->first_free[home] = (uint32_t)position;
    }
}

/* Frees a slot for each home that has none: at its last position. */
static struct bounds free_slots_for(size_t slots, size_t positions)
{
    struct bounds bounds = { slots, positions, numbers_of(slots * sizeof(uint32_t)) };

    for (size_t home = 0; home < slots; home++)
        bounds.first_free[home] = (uint32_t)positions;
    for (size_t home = 0; home < slots; home++)
        if (bounds.first_free[home] == positions)
            free_slot(&bounds, probe_slot((uint32_t)home, slots, positions - 1));
    return bounds;
}

/* The last position at which the slot comes before each free one. Its own home has it at 0. */
static size_t last_position(const struct bounds *bounds, size_t slot)
{
    size_t position = bounds->positions - 1;

    while (bounds->first_free[home_of(bounds->slots, slot, position)] <= position)
        position--;
    return position;
}

struct forged forge_up_to(size_t slots, size_t groups)
{
    struct forged table = forge_nothing(slots, 100);
    struct bounds bounds = free_slots_for(slots, groups * GROUP);

    for (size_t slot = 0; slot < slots; slot++)
        if (bounds.first_free[slot] > 0)
            fill_slot(&table, slot,
                      (uint32_t)home_of(slots, slot, last_position(&bounds, slot)));
    return counted(table);
}
