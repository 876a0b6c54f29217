/* The calls that read accepted bytes keep to the frame. */
#include <string.h>

#include "buffers.h"
#include "frame.h"
#include "keys.h"
#include "odht.h"
#include "placing.h"
#include "test.h"

/* The keys of the slots, and for each two that are near it and far from it. */
enum { KEYS = 3 * FRAME_SLOTS, OUT_LEN = 4608 };
static const uint32_t far = 0x9e3779b9;

/* A table whose calls are looked at, and the keys that are looked up. */
struct looked {
    const struct calls *calls;
    struct reading table;
    odht_view *view;
    size_t count;
    uint8_t *keys;
    uint8_t *values;
    uint8_t *found;
};

/* Whether the entry of a slot is the key with the value, and the slot occupied where that is asked for. */
static bool stores(const struct reading *table, const uint8_t *key, const uint8_t *value,
                   bool occupied)
{
    for (size_t slot = 0; slot < slots_of(table); slot++)
        if ((!occupied || is_occupied(table, slot))
            && memcmp(key_in(table, slot), key, table->shape.key) == 0
            && memcmp(value_in(table, slot), value, table->shape.value) == 0)
            return true;
    return false;
}

static uint8_t *key_at(const struct looked *looked, size_t index)
{
    return looked->keys + index * looked->table.shape.key;
}

static uint8_t *value_at(const struct looked *looked, size_t index)
{
    return looked->values + index * looked->table.shape.value;
}

/* The key of a slot, one that is near it, and one that is far. */
static void add_keys(struct looked *looked, size_t slot)
{
    struct shape shape = looked->table.shape;
    uint32_t number = number_of_key(shape, key_in(&looked->table, slot));

    memcpy(key_at(looked, looked->count++), key_in(&looked->table, slot), shape.key);
    write_key(shape, number ^ 1, key_at(looked, looked->count++));
    write_key(shape, number + far, key_at(looked, looked->count++));
}

/*
 * What is looked up in a table. Its bytes were opened, and perhaps written by inserts since: opening may then find an
 * error in the first ten slots, but a view remains usable.
 */
static struct looked looked_at(const struct calls *calls, const uint8_t *bytes, size_t len)
{
    struct looked looked = {
        .calls = calls,
        .table = { bytes, len, calls->shape },
        .view = view_of_nothing(),
        .keys = numbers_of(KEYS * calls->shape.key),
        .values = numbers_of(KEYS * calls->shape.value),
        .found = bytes_of(KEYS),
    };

    STATUS(calls->open_view(bytes, len, looked.view), opening_error(&looked.table));
    looked.view->bytes = bytes;
    looked.view->len = len;
    for (size_t slot = 0; slot < slots_of(&looked.table); slot++)
        add_keys(&looked, slot);
    return looked;
}

/* A lookup finds a value that is stored with the key, or leaves the value. */
static void check_lookup(const struct looked *looked, size_t index, uint32_t status)
{
    const uint8_t *value = value_at(looked, index);

    if (status == ODHT_OK) {
        HOLDS(stores(&looked->table, key_at(looked, index), value, false));
        return;
    }
    STATUS(status, ODHT_ABSENT);
    ALL_BYTES(value, looked->table.shape.value, FILL);
}

/* Each key, one lookup after the other. */
static void check_single_lookups(const struct looked *looked, struct cases *cases)
{
    const struct calls *calls = looked->calls;

    for (size_t index = 0; index < looked->count; index++) {
        uint8_t *key = key_at(looked, index);
        uint8_t *value = value_at(looked, index);
        uint32_t status = calls->get(looked->table.bytes, looked->table.len, key, value);

        check_lookup(looked, index, status);
        if (status == ODHT_OK)
            cases->found_in_a_free_slot += !stores(&looked->table, key, value, true);
        memset(value, FILL, looked->table.shape.value);
        check_lookup(looked, index, calls->view_get(looked->view, key, value));
    }
}

/* What a lookup of all keys has found. */
static void check_found(const struct looked *looked)
{
    for (size_t index = 0; index < looked->count; index++) {
        HOLDS(looked->found[index] <= 1);
        check_lookup(looked, index, looked->found[index] == 1 ? ODHT_OK : ODHT_ABSENT);
    }
}

/* All keys at once, by either call. */
static void check_lookups_at_once(const struct looked *looked)
{
    size_t count = looked->count;
    size_t len = count * looked->table.shape.value;

    memset(looked->values, FILL, len);
    STATUS(looked->calls->get_all(looked->table.bytes, looked->table.len, looked->keys, count,
                                  looked->values, count, looked->found, count), ODHT_OK);
    check_found(looked);
    memset(looked->values, FILL, len);
    STATUS(looked->calls->view_get_all(looked->view, looked->keys, count, looked->values, count,
                                       looked->found, count), ODHT_OK);
    check_found(looked);
}

/* The walk's next pair is that of this slot. Counts the key where it is not found. */
static void check_walked(const struct looked *looked, size_t slot, size_t index,
                         struct cases *cases)
{
    const struct reading *table = &looked->table;
    uint64_t value[5];
    uint32_t status = looked->calls->get(table->bytes, table->len, key_at(looked, index), value);

    SAME_BYTES(key_at(looked, index), key_in(table, slot), table->shape.key);
    SAME_BYTES(value_at(looked, index), value_in(table, slot), table->shape.value);
    cases->missed += status == ODHT_ABSENT;
}

/* The walk gives the entries of the occupied slots, in slot order. */
static void check_walk(const struct looked *looked, struct cases *cases)
{
    const struct reading *table = &looked->table;
    size_t *cursor = SIZES(0);
    size_t *count = SIZES(0);
    size_t walked = 0;

    STATUS(looked->calls->walk(table->bytes, table->len, cursor, looked->keys, KEYS,
                               looked->values, KEYS, count),
           ODHT_OK);
    EQUAL(*count, occupied_in(table));
    for (size_t slot = 0; slot < slots_of(table); slot++)
        if (is_occupied(table, slot))
            check_walked(looked, slot, walked++, cases);
}

/* The numbers of the header, and what the checks return. */
static void check_numbers(const struct looked *looked)
{
    const struct calls *calls = looked->calls;
    const struct reading *table = &looked->table;
    size_t *numbers = SIZES(0, 0, 0);
    uint8_t *percent = bytes_of(1);

    STATUS(calls->len(table->bytes, table->len, numbers), ODHT_OK);
    EQUAL(numbers[0], count_of(table));
    EQUAL(calls->view_len(looked->view), count_of(table));
    STATUS(calls->sizes(table->bytes, table->len, numbers, numbers + 1, percent), ODHT_OK);
    EQUAL(numbers[0], slots_of(table));
    EQUAL(numbers[1], maximum_of(table));
    EQUAL(*percent, factor_of(table) * 100 / 65535);
    STATUS(calls->open(table->bytes, table->len), opening_error(table));
    STATUS(calls->check(table->bytes, table->len), whole_error(table));
}

/* A growth makes bytes that are accepted, with the header's count and load factor. */
static void check_growth(const struct looked *looked, struct cases *cases)
{
    struct reading out = { bytes_of(OUT_LEN), OUT_LEN, looked->table.shape };
    size_t *len = SIZES(1);
    size_t expected_len = 1;
    uint32_t expected = growth_answer(&looked->table, OUT_LEN, &expected_len);

    STATUS(looked->calls->grow(looked->table.bytes, looked->table.len, (uint8_t *)out.bytes,
                               OUT_LEN, len),
           expected);
    EQUAL(*len, expected_len);
    if (expected != ODHT_OK) {
        ALL_BYTES(out.bytes, OUT_LEN, FILL);
        return;
    }
    ALL_BYTES(out.bytes + *len, OUT_LEN - *len, FILL);
    out.len = *len;
    EQUAL(header_error(&out), ODHT_OK);
    EQUAL(count_of(&out), count_of(&looked->table));
    EQUAL(factor_of(&out), factor_of(&looked->table));
    cases->grown++;
}

void check_reads(const struct calls *calls, const uint8_t *bytes, size_t len, struct cases *cases)
{
    size_t kept = buffer_count();
    uint8_t before[FRAME_BYTES];
    struct looked looked;

    HOLDS(len <= sizeof before);
    memcpy(before, bytes, len);
    looked = looked_at(calls, bytes, len);
    check_single_lookups(&looked, cases);
    check_lookups_at_once(&looked);
    check_walk(&looked, cases);
    check_numbers(&looked);
    check_growth(&looked, cases);
    SAME_BYTES(bytes, before, len);
    drop_buffers_since(kept);
}
