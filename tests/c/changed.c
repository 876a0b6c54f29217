/* Tables that the library made, with changed bytes. */
#include "changed.h"

#include "buffers.h"
#include "keys.h"
#include "odht.h"
#include "test.h"

enum { MOST_BYTES = 40 };

struct reading reading_of(const struct changed *changed)
{
    return (struct reading){ changed->bytes, changed->len, changed->calls->shape };
}

void write_byte(struct changed *changed, size_t at, uint8_t byte)
{
    if (at < changed->len)
        changed->bytes[at] = byte;
}

/* Inserts a pair, which may overwrite a value. */
static void insert_random(struct changed *changed, struct random *random)
{
    uint64_t key[MOST_BYTES / 8];
    uint64_t value[MOST_BYTES / 8];
    uint64_t former[MOST_BYTES / 8];
    uint32_t status;

    write_key(changed->calls->shape, random_key(random), key);
    write_value(changed->calls->shape, random_word(random), value);
    status = changed->calls->insert(changed->bytes, changed->len, key, value, former);
    HOLDS(status == ODHT_OK || status == ODHT_REPLACED);
}

struct changed made_table(const struct calls *calls, size_t slots, size_t maximum, size_t inserts,
                          struct random *random)
{
    struct changed changed = { .calls = calls, .slots = slots };

    changed.len = image_len(calls->shape, slots);
    changed.bytes = bytes_of(changed.len);
    STATUS(calls->init(changed.bytes, changed.len, maximum, 87), ODHT_OK);
    for (size_t index = 0; index < inserts; index++)
        insert_random(&changed, random);
    return changed;
}
