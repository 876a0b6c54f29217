/* The second writing of tables. */
#include "placing.h"

#include <string.h>

#include "odht.h"

uint64_t factor_of_percent(uint8_t percent)
{
    return (uint64_t)percent * 65535 / 100;
}

/* slots * factor / 65536; a slot count from 65536 on is divided first, without a remainder. */
static uint64_t maximum_for(uint64_t slots, uint64_t factor)
{
    return slots < 65536 ? slots * factor / 65536 : slots / 65536 * factor;
}

size_t slots_for(uint64_t items, uint64_t factor)
{
    for (unsigned exponent = 4; exponent < 64; exponent++)
        if (maximum_for(UINT64_C(1) << exponent, factor) >= items)
            return (size_t)1 << exponent;
    return 0;
}

/* Twice the items, and one at least. From 2^62 items on there are no slots for twice as many. */
static size_t grown_slots(uint64_t items, uint64_t factor)
{
    if (items >= UINT64_C(1) << 62)
        return 0;
    return slots_for(items == 0 ? 1 : 2 * items, factor);
}

uint32_t growth_answer(const struct reading *table, size_t out_len, size_t *len)
{
    size_t slots = grown_slots(count_of(table), factor_of(table));
    size_t slot_len = table->shape.key + table->shape.value + 1;

    if (factor_of(table) < 655)
        return ODHT_LOAD_FACTOR_TOO_SMALL;
    if (slots == 0 || slots > (SIZE_MAX - 48) / slot_len)
        return ODHT_CAPACITY;
    *len = image_len(table->shape, slots);
    return *len > out_len ? ODHT_TOO_SMALL : ODHT_OK;
}

/* Writes a number of eight bytes, the lowest first. */
static void write_number(uint8_t *bytes, uint64_t number)
{
    for (size_t index = 0; index < 8; index++)
        bytes[index] = (uint8_t)(number >> 8 * index);
}

void place_nothing(uint8_t *bytes, struct shape shape, size_t slots, uint64_t factor)
{
    size_t len = image_len(shape, slots);
    const uint8_t sizes[4] = { 1, (uint8_t)shape.key, (uint8_t)shape.value, 32 };

    memset(bytes, 0, len);
    memcpy(bytes, "ODHT", 4);
    memcpy(bytes + 4, sizes, 4);
    write_number(bytes + 16, slots);
    bytes[27] = 2;
    bytes[28] = (uint8_t)factor;
    bytes[29] = (uint8_t)(factor >> 8);
    memset(bytes + len - slots - 16, 255, slots + 16);
}

/* Writes a new pair to a free slot. */
static void write_pair(uint8_t *bytes, const struct reading *table, size_t slot,
                       const uint8_t *key)
{
    uint8_t tag = tag_of(table->shape, key);

    memcpy(bytes + entry_at(table, slot), key, table->shape.key);
    bytes[control_at(table, slot)] = tag;
    if (slot < 16)
        bytes[control_at(table, slots_of(table) + slot)] = tag;
    write_number(bytes + 8, count_of(table) + 1);
}

void place_pair(uint8_t *bytes, size_t len, struct shape shape, const uint8_t *key,
                const uint8_t *value)
{
    struct reading table = { bytes, len, shape };
    size_t slot = search_end(&table, key);

    if (!is_occupied(&table, slot))
        write_pair(bytes, &table, slot, key);
    memcpy(bytes + entry_at(&table, slot) + shape.key, value, shape.value);
}

void place_all(uint8_t *bytes, size_t len, const struct reading *table)
{
    for (size_t slot = 0; slot < slots_of(table); slot++)
        if (is_occupied(table, slot))
            place_pair(bytes, len, table->shape, key_in(table, slot), value_in(table, slot));
}

/* Writes the table that this one grows into. Returns its length. */
static size_t grow(const struct reading *table, uint8_t *out)
{
    size_t slots = grown_slots(count_of(table), factor_of(table));
    size_t len = image_len(table->shape, slots);

    place_nothing(out, table->shape, slots, factor_of(table));
    place_all(out, len, table);
    return len;
}

size_t place_growing(uint8_t *bytes, size_t len, uint8_t *spare, struct shape shape,
                     const uint8_t *key, const uint8_t *value)
{
    struct reading table = { bytes, len, shape };
    bool is_new = !is_occupied(&table, search_end(&table, key));

    if (is_new && count_of(&table) >= maximum_of(&table)) {
        len = grow(&table, spare);
        memcpy(bytes, spare, len);
    }
    place_pair(bytes, len, shape, key, value);
    return len;
}
