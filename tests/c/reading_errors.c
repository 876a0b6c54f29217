/* The second reading of a table's bytes: the errors of docs/FORMAT.md, "What is rejected, and in which order". */
#include <string.h>

#include "odht.h"
#include "reading.h"

enum { FIRST_SLOTS = 10, LEAST_FACTOR = 655 };

/* Steps 1 to 4. */
static uint32_t field_error(const struct reading *table)
{
    const uint8_t *bytes = table->bytes;

    if (table->len < 32)
        return ODHT_TOO_SHORT;
    if (memcmp(bytes, "ODHT", 4) != 0)
        return ODHT_WRONG_TAG;
    if (memcmp(bytes + 24, "\0\0\0\2", 4) != 0)
        return ODHT_WRONG_VERSION;
    if (bytes[4] != 1 || bytes[5] != table->shape.key || bytes[6] != table->shape.value
        || bytes[7] != 32)
        return ODHT_WRONG_SIZE;
    return ODHT_OK;
}

static bool is_power_of_two(uint64_t number)
{
    for (unsigned exponent = 0; exponent < 64; exponent++)
        if (number == UINT64_C(1) << exponent)
            return true;
    return false;
}

/* Steps 1 to 5, all but the length. */
static uint32_t early_error(const struct reading *table)
{
    uint32_t error = field_error(table);

    if (error != ODHT_OK)
        return error;
    if (!is_power_of_two(slots_of(table)))
        return ODHT_SLOT_COUNT_NOT_POWER_OF_TWO;
    return slots_of(table) < 16 ? ODHT_SLOT_COUNT_TOO_SMALL : ODHT_OK;
}

uint32_t header_error(const struct reading *table)
{
    uint32_t error = front_error(table);

    if (error == ODHT_OK && image_len(table->shape, slots_of(table)) != table->len)
        return ODHT_WRONG_LENGTH;
    return error;
}

/* A slot takes at least a byte, so more slots than bytes are too many, and the length of fewer does not wrap. */
uint32_t front_error(const struct reading *table)
{
    uint32_t error = early_error(table);
    size_t slots = slots_of(table);

    if (error != ODHT_OK)
        return error;
    if (slots > table->len || image_len(table->shape, slots) > table->len)
        return ODHT_WRONG_LENGTH;
    return ODHT_OK;
}

/* A free slot's entry is not zero. */
static uint32_t empty_error(const struct reading *table, size_t slot)
{
    for (size_t at = entry_at(table, slot); at < entry_at(table, slot + 1); at++)
        if (byte_at(table, at) != 0)
            return ODHT_NON_ZERO_EMPTY;
    return ODHT_OK;
}

/* The error of a slot that opening finds. */
static uint32_t slot_error(const struct reading *table, size_t slot)
{
    if (!is_occupied(table, slot))
        return empty_error(table, slot);
    if (byte_at(table, control_at(table, slot)) != tag_of(table->shape, key_in(table, slot)))
        return ODHT_CONTROL_MISMATCH;
    return ODHT_OK;
}

uint32_t opening_error(const struct reading *table)
{
    uint32_t error = header_error(table);

    for (size_t slot = 0; slot < FIRST_SLOTS && error == ODHT_OK; slot++)
        error = slot_error(table, slot);
    return error;
}

/* Steps 9 and 10. */
static uint32_t factor_error(const struct reading *table)
{
    if (factor_of(table) < LEAST_FACTOR)
        return ODHT_LOAD_FACTOR_TOO_SMALL;
    return number_at(table, 30, 2) == 0 ? ODHT_OK : ODHT_NON_ZERO_PADDING;
}

/* Step 11 of one slot. */
static uint32_t contents_error(const struct reading *table, size_t slot)
{
    uint32_t error = slot_error(table, slot);
    uint8_t control = byte_at(table, control_at(table, slot));

    if (error == ODHT_OK && control >= 128 && control != 255)
        return ODHT_BAD_FREE_CONTROL;
    return error;
}

static uint32_t slots_error(const struct reading *table)
{
    uint32_t error = ODHT_OK;

    for (size_t slot = 0; slot < slots_of(table) && error == ODHT_OK; slot++)
        error = contents_error(table, slot);
    return error;
}

static bool mirror_differs(const struct reading *table, size_t index)
{
    size_t control = control_at(table, index);

    return byte_at(table, control) != byte_at(table, control + slots_of(table));
}

static uint32_t mirror_error(const struct reading *table)
{
    for (size_t index = 0; index < 16; index++)
        if (mirror_differs(table, index))
            return ODHT_MIRROR_MISMATCH;
    return ODHT_OK;
}

/* Steps 13 and 14. */
static uint32_t count_error(const struct reading *table)
{
    if (count_of(table) != occupied_in(table))
        return ODHT_WRONG_ITEM_COUNT;
    return count_of(table) > maximum_of(table) ? ODHT_TOO_MANY_ITEMS : ODHT_OK;
}

static bool is_unreachable(const struct reading *table, size_t slot)
{
    return is_occupied(table, slot) && search_end(table, key_in(table, slot)) != slot;
}

static uint32_t reach_error(const struct reading *table)
{
    for (size_t slot = 0; slot < slots_of(table); slot++)
        if (is_unreachable(table, slot))
            return ODHT_UNREACHABLE;
    return ODHT_OK;
}

uint32_t whole_error(const struct reading *table)
{
    uint32_t (*const steps[])(const struct reading *) = {
        opening_error, factor_error, slots_error, mirror_error, count_error, reach_error,
    };
    uint32_t error = ODHT_OK;

    for (size_t step = 0; step < sizeof steps / sizeof steps[0] && error == ODHT_OK; step++)
        error = steps[step](table);
    return error;
}

/* Whether a search from this home meets a free slot in so many groups: sixteen positions of its probe order each. */
static bool ends_within(const struct reading *table, size_t home, size_t groups)
{
    size_t slots = slots_of(table);

    for (size_t position = 0; position < slots && position / 16 < groups; position++)
        if (!is_occupied(table, probe_slot((uint32_t)home, slots, position)))
            return true;
    return false;
}

uint32_t within_error(const struct reading *table, uint32_t whole, size_t groups)
{
    if (whole != ODHT_OK && whole != ODHT_UNREACHABLE)
        return whole;
    for (size_t home = 0; home < slots_of(table); home++)
        if (!ends_within(table, home, groups))
            return ODHT_SEARCH_TOO_LONG;
    return whole;
}

/* Whether this error, one of slots, is at this slot. */
static bool is_error_at(const struct reading *table, uint32_t error, size_t groups, size_t slot)
{
    switch (error) {
    case ODHT_MIRROR_MISMATCH: return mirror_differs(table, slot);
    case ODHT_UNREACHABLE: return is_unreachable(table, slot);
    case ODHT_SEARCH_TOO_LONG: return !ends_within(table, slot, groups);
    default: return contents_error(table, slot) == error;
    }
}

static bool is_of_slots(uint32_t error)
{
    return error == ODHT_NON_ZERO_EMPTY || error == ODHT_CONTROL_MISMATCH
        || error == ODHT_BAD_FREE_CONTROL || error == ODHT_MIRROR_MISMATCH
        || error == ODHT_UNREACHABLE || error == ODHT_SEARCH_TOO_LONG;
}

size_t error_slot(const struct reading *table, uint32_t error, size_t groups)
{
    size_t slot = 0;

    if (!is_of_slots(error))
        return SIZE_MAX;
    while (slot < slots_of(table) && !is_error_at(table, error, groups, slot))
        slot++;
    return slot;
}
