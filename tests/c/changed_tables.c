/* Tables that the library made, with changed bytes: if they can be opened, each call keeps to the frame. */
#include <stdint.h>
#include <string.h>

#include "buffers.h"
#include "changed.h"
#include "frame.h"
#include "keys.h"
#include "odht.h"
#include "subjects.h"

/* How the bytes of a table are changed. */
enum way {
    /* any bytes past the header */
    ANY_BYTES,
    /* these, the item count and the load factor */
    HEADER_BYTES,
    /* free control bytes become 0, and when none is left the item count is changed */
    OCCUPIED,
    /* keys of slots past those that opening checks, with the tag in the mirror, and any bytes */
    IN_MIRROR,
    WAYS
};

enum { CHECKED_SLOTS = 10, PAIRS = 5, INSERTS = 12 };

/* The offset of a control byte or of a mirror byte, from the control byte of a slot on. */
static size_t control_from(const struct changed *changed, size_t slot, struct random *random)
{
    struct reading table = reading_of(changed);

    return control_at(&table, slot) + random_below(random, changed->slots + 16 - slot);
}

/* An offset past the header. */
static size_t random_offset(const struct changed *changed, struct random *random)
{
    struct reading table = reading_of(changed);
    size_t entry = table.shape.key + table.shape.value;

    switch (random_below(random, 4)) {
    case 0: return random_below(random, changed->len - 32) + 32;
    case 1: return control_from(changed, 0, random);
    case 2: return control_from(changed, CHECKED_SLOTS, random);
    default:
        return random_below(random, (changed->slots - CHECKED_SLOTS) * entry)
            + entry_at(&table, CHECKED_SLOTS);
    }
}

/* A byte that may mean something to the library. */
static uint8_t random_value(const struct changed *changed, struct random *random)
{
    switch (random_below(random, 8)) {
    case 0: return 0;
    case 1: return 255;
    case 2: return 128;
    case 3: return random_byte(random) % 4;
    case 4:
    case 5: return changed->bytes[control_from(changed, 0, random)];
    default: return random_byte(random);
    }
}

static void change_any(struct changed *changed, struct random *random)
{
    size_t at = random_offset(changed, random);

    write_byte(changed, at, random_value(changed, random));
}

/* The lowest byte of the item count becomes small, or any byte of it changes. */
static void change_count(struct changed *changed, struct random *random)
{
    if (random_below(random, 4) > 0) {
        write_byte(changed, 8, random_byte(random) % 32);
    } else {
        size_t at = random_below(random, 8) + 8;
        write_byte(changed, at, random_value(changed, random));
    }
}

static void change_header(struct changed *changed, struct random *random)
{
    size_t at;

    switch (random_below(random, 4)) {
    case 0:
        change_count(changed, random);
        return;
    case 1:
        at = random_below(random, 2) + 28;
        write_byte(changed, at, random_value(changed, random));
        return;
    default:
        change_any(changed, random);
    }
}

/* The first free control byte from an offset on, or the length. */
static size_t free_from(const struct changed *changed, size_t at)
{
    while (at < changed->len && changed->bytes[at] < 128)
        at++;
    return at;
}

static void fill_one(struct changed *changed, struct random *random)
{
    struct reading table = reading_of(changed);
    size_t at = free_from(changed, control_from(changed, 0, random));

    if (at == changed->len)
        at = free_from(changed, control_at(&table, 0));
    if (at == changed->len)
        change_count(changed, random);
    else
        write_byte(changed, at, 0);
}

/* A slot's key changes, and only the mirror has its tag. The changed byte is the lowest of the key's number. */
static void change_mirror(struct changed *changed, struct random *random)
{
    struct reading table = reading_of(changed);
    size_t slot = random_below(random, 6) + CHECKED_SLOTS;
    size_t number = table.shape.hash == FX ? 0 : table.shape.key - 4;

    write_byte(changed, entry_at(&table, slot) + number, random_byte(random));
    write_byte(changed, control_at(&table, changed->slots + slot),
               tag_of(table.shape, key_in(&table, slot)));
}

static void change_in_mirror(struct changed *changed, struct random *random)
{
    if (random_below(random, 2) == 0)
        change_mirror(changed, random);
    else
        change_any(changed, random);
}

static void change_once(struct changed *changed, enum way way, struct random *random)
{
    static void (*const changes[WAYS])(struct changed *, struct random *) = {
        change_any, change_header, fill_one, change_in_mirror,
    };

    changes[way](changed, random);
}

/* A table of 16 or 32 slots, by no more inserts than its maximum item count. */
static struct changed made(const struct calls *calls, struct random *random)
{
    bool is_small = random_below(random, 2) == 0;
    size_t maximum = is_small ? 13 : 27;
    size_t items;

    if (random_below(random, 2) == 0)
        items = maximum - random_below(random, 3);
    else
        items = random_below(random, maximum + 1);
    return made_table(calls, is_small ? 16 : 32, maximum, items, random);
}

/* A table of which one to eight bytes are changed. */
static struct changed changed_table(const struct calls *calls, enum way way, struct random *random)
{
    struct changed changed = made(calls, random);
    size_t changes = random_below(random, way == IN_MIRROR ? 4 : 8) + 1;

    for (size_t index = 0; index < changes; index++)
        change_once(&changed, way, random);
    return changed;
}

/* A key to insert, which is in the bytes as often as not. */
static void random_key_for(const struct changed *changed, struct random *random, uint8_t *key)
{
    struct reading table = reading_of(changed);
    size_t slot = random_below(random, changed->slots);

    if (random_below(random, 2) == 0)
        memcpy(key, key_in(&table, slot), table.shape.key);
    else
        write_key(table.shape, random_key(random), key);
}

/* Inserts one by one stay in the frame. */
static void check_inserts(const struct changed *changed, struct random *random,
                          struct cases *cases)
{
    struct shape shape = changed->calls->shape;
    uint8_t *key = numbers_of(shape.key);
    uint8_t *value = numbers_of(shape.value);

    for (size_t index = 0; index < INSERTS; index++) {
        random_key_for(changed, random, key);
        write_value(shape, random_word(random), value);
        check_insert(changed->calls, changed->bytes, changed->len, key, value, cases);
    }
}

/* Inserts of a list into a copy stay in the frame. */
static void check_inserts_at_once(const struct changed *changed, struct random *random,
                                  struct cases *cases)
{
    struct shape shape = changed->calls->shape;
    uint8_t *copy = copy_of(changed->bytes, changed->len);
    uint8_t *keys = numbers_of(PAIRS * shape.key);
    uint8_t *values = numbers_of(PAIRS * shape.value);

    for (size_t index = 0; index < PAIRS; index++) {
        random_key_for(changed, random, keys + index * shape.key);
        write_value(shape, random_word(random), values + index * shape.value);
    }
    check_insert_all(changed->calls, copy, changed->len, keys, values, PAIRS, cases);
}

/* Each call on a table that is opened stays in the frame. */
static void check_calls(const struct changed *changed, struct random *random, struct cases *cases)
{
    check_reads(changed->calls, changed->bytes, changed->len, cases);
    check_inserts_at_once(changed, random, cases);
    check_inserts(changed, random, cases);
    check_reads(changed->calls, changed->bytes, changed->len, cases);
}

/* Changes a table, asserts that it is opened exactly where the second reading finds no error, and checks each call. */
static void try_table(const struct calls *calls, uint64_t seed, enum way way, struct cases *cases)
{
    struct random random = { seed };
    size_t kept = buffer_count();
    struct changed changed = changed_table(calls, way, &random);
    struct reading table = reading_of(&changed);
    uint32_t error = opening_error(&table);

    in_case(calls->name, 10 * seed + way);
    STATUS(calls->open(changed.bytes, changed.len), error);
    cases->tried++;
    cases->accepted += error == ODHT_OK;
    if (error == ODHT_OK)
        check_calls(&changed, &random, cases);
    drop_buffers_since(kept);
}

/* Tries so many tables of each way, and counts those that are opened: some, and so many where that was counted. */
static void check_tables(const struct calls *calls, size_t tables, size_t accepted)
{
    struct cases cases = { .tried = 0 };

    for (size_t index = 0; index < tables; index++)
        try_table(calls, index / WAYS, (enum way)(index % WAYS), &cases);
    in_case(calls->name, tables);
    EQUAL(cases.tried, tables);
    HOLDS(cases.accepted > 0 && cases.accepted < cases.tried);
    if (accepted != 0)
        EQUAL(cases.accepted, accepted);
    check_each_case(&cases);
}

/* How many tables of some shapes are tried, and how many of them are opened: counted outside the library. */
static void calls_stay_in_the_frame(void)
{
    static const struct { size_t tables; size_t accepted; } rows[SHAPES] = {
        [AT_u32_u32] = { 800, 658 }, [AT_u64_u32] = { 400, 329 }, [AT_u64_u64] = { 400, 327 },
        [AT_b16_u32] = { 400, 338 }, [AT_b16_u64] = { 400, 335 }, [AT_b20_u64] = { 400, 338 },
        [AT_b32_u64] = { 400, 337 }, [AT_b16] = { 400, 337 }, [AT_b32] = { 400, 335 },
    };

    for (size_t index = 0; index < SHAPES; index++) {
        size_t tables = rows[index].tables == 0 ? 400 : rows[index].tables;

        check_tables(&all_shapes[index], tables, rows[index].accepted);
    }
}

/*
 * The mirror of slot 0 counts as occupied, and the slot as free: a search by groups and one slot by slot may differ
 * here. The keys 15 and 31 have the home 15.
 */
static void a_mirror_that_hides_a_free_slot(void)
{
    struct shape shape = b16_u32_calls->shape;
    size_t len = image_len(shape, 16);
    uint8_t *bytes = bytes_of(len);
    uint8_t *key = bytes_of(shape.key);
    struct cases cases = { .tried = 0 };

    STATUS(b16_u32_calls->init(bytes, len, 13, 87), ODHT_OK);
    bytes[len - 16] = 5;
    write_key(shape, 15, key);
    check_insert(b16_u32_calls, bytes, len, key, U32S(1), &cases);
    write_key(shape, 31, key);
    check_insert(b16_u32_calls, bytes, len, key, U32S(2), &cases);
    EQUAL(cases.added, 2);
}

const struct test changed_table_tests[] = {
    TEST(calls_stay_in_the_frame),
    TEST(a_mirror_that_hides_a_free_slot),
    END_OF_TESTS
};
