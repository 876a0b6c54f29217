/* Inserts into accepted bytes keep to the frame. */
#include <string.h>

#include "frame.h"
#include "odht.h"
#include "test.h"

/* Whether the mirror of a slot counts as free, or the slot where it has none. */
static bool is_free_in_mirror(const struct reading *table, size_t slot)
{
    if (slot >= 16)
        return !is_occupied(table, slot);
    return byte_at(table, control_at(table, slots_of(table) + slot)) >= 128;
}

/* Whether some slot is free by its control byte and by its mirror, so that each search that reaches it ends there. */
static bool has_free(const struct reading *table)
{
    for (size_t slot = 0; slot < slots_of(table); slot++)
        if (!is_occupied(table, slot) && is_free_in_mirror(table, slot))
            return true;
    return false;
}

/* A pair that is inserted, and the bytes before and after it. */
struct inserted {
    struct reading before;
    struct reading after;
    const void *key;
    const void *value;
};

/* Whether the value in this slot became the new one and nothing else changed. */
static bool is_value_written(const struct inserted *inserted, size_t slot)
{
    const struct reading *before = &inserted->before;
    uint8_t expected[FRAME_BYTES];

    memcpy(expected, before->bytes, before->len);
    memcpy(expected + entry_at(before, slot) + before->shape.key, inserted->value,
           before->shape.value);
    return memcmp(inserted->after.bytes, expected, before->len) == 0;
}

/* Whether one value that is stored with the key, the former one, became the new one and nothing else changed. */
static bool is_overwritten(const struct inserted *inserted, const void *former)
{
    const struct reading *before = &inserted->before;

    for (size_t slot = 0; slot < slots_of(before); slot++)
        if (memcmp(key_in(before, slot), inserted->key, before->shape.key) == 0
            && memcmp(value_in(before, slot), former, before->shape.value) == 0
            && is_value_written(inserted, slot))
            return true;
    return false;
}

/* Whether the pair was written to this slot, with its tag and the count, and nothing else changed. */
static bool is_pair_written(const struct inserted *inserted, size_t slot)
{
    const struct reading *before = &inserted->before;
    uint8_t expected[FRAME_BYTES];
    uint64_t count = count_of(before) + 1;
    uint8_t tag = tag_of(before->shape, inserted->key);

    memcpy(expected, before->bytes, before->len);
    memcpy(expected + entry_at(before, slot), inserted->key, before->shape.key);
    memcpy(expected + entry_at(before, slot) + before->shape.key, inserted->value,
           before->shape.value);
    memcpy(expected + 8, &count, 8);
    expected[control_at(before, slot)] = tag;
    if (slot < 16)
        expected[control_at(before, slots_of(before) + slot)] = tag;
    return memcmp(inserted->after.bytes, expected, before->len) == 0;
}

/* The slot that could be free and took the pair, or the slot count. */
static size_t slot_that_took(const struct inserted *inserted)
{
    const struct reading *before = &inserted->before;
    size_t slot;

    for (slot = 0; slot < slots_of(before); slot++)
        if ((!is_occupied(before, slot) || is_free_in_mirror(before, slot))
            && is_pair_written(inserted, slot))
            break;
    return slot;
}

/* Asserts that a pair was added to a slot that could be free, below the maximum. */
static void check_added(const struct inserted *inserted, struct cases *cases)
{
    const struct reading *before = &inserted->before;
    size_t slot = slot_that_took(inserted);

    HOLDS(count_of(before) < maximum_of(before));
    HOLDS(slot < slots_of(before));
    cases->added++;
    cases->added_over_an_occupied_slot += is_occupied(before, slot);
}

/* Asserts that nothing changed, at the maximum or where no slot is free for each search. */
static void check_full(const struct inserted *inserted, struct cases *cases)
{
    const struct reading *before = &inserted->before;
    bool is_at_maximum = count_of(before) >= maximum_of(before);

    SAME_BYTES(inserted->after.bytes, before->bytes, before->len);
    HOLDS(is_at_maximum || !has_free(before));
    cases->full_by_count += is_at_maximum;
    cases->full_by_slots += !is_at_maximum;
}

void check_insert(const struct calls *calls, uint8_t *bytes, size_t len, const void *key,
                  const void *value, struct cases *cases)
{
    uint8_t before[FRAME_BYTES];
    uint64_t former[5];
    struct inserted inserted = {
        { before, len, calls->shape }, { bytes, len, calls->shape }, key, value
    };
    uint32_t status;

    HOLDS(len <= sizeof before);
    memcpy(before, bytes, len);
    status = calls->insert(bytes, len, key, value, former);
    if (status == ODHT_REPLACED) {
        HOLDS(is_overwritten(&inserted, former));
        cases->overwritten++;
    } else if (status == ODHT_FULL) {
        check_full(&inserted, cases);
    } else {
        STATUS(status, ODHT_OK);
        check_added(&inserted, cases);
    }
    EQUAL(header_error(&inserted.after), ODHT_OK);
}

void check_insert_all(const struct calls *calls, uint8_t *bytes, size_t len, const void *keys,
                      const void *values, size_t count, struct cases *cases)
{
    uint8_t header[32];
    size_t accepted = SIZE_MAX;
    uint32_t status;

    memcpy(header, bytes, sizeof header);
    status = calls->insert_all(bytes, len, keys, count, values, count, &accepted);
    HOLDS(accepted <= count);
    STATUS(status, accepted == count ? ODHT_OK : ODHT_FULL);
    cases->all_inserted += accepted == count;
    cases->some_inserted += accepted > 0 && accepted < count;
    SAME_BYTES(bytes, header, 8);
    SAME_BYTES(bytes + 16, header + 16, 16);
}

void check_each_case(const struct cases *cases)
{
    HOLDS(cases->overwritten > 0);
    HOLDS(cases->added > 0);
    HOLDS(cases->added_over_an_occupied_slot > 0);
    HOLDS(cases->full_by_count > 0);
    HOLDS(cases->full_by_slots > 0);
    HOLDS(cases->found_in_a_free_slot > 0);
    HOLDS(cases->missed > 0);
    HOLDS(cases->all_inserted > 0);
    HOLDS(cases->some_inserted > 0);
    HOLDS(cases->grown > 0);
}
