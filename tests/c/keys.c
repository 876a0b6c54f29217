/* Makes keys and values from numbers. */
#include "keys.h"

#include <string.h>

#include "buffers.h"

/* Where the number is in a key. */
static size_t number_at(struct shape shape)
{
    return shape.hash == FX ? 0 : shape.key - 4;
}

void write_key(struct shape shape, uint32_t number, void *key)
{
    memset(key, 0, shape.key);
    memcpy((uint8_t *)key + number_at(shape), &number, 4);
}

uint32_t number_of_key(struct shape shape, const void *key)
{
    uint32_t number;

    memcpy(&number, (const uint8_t *)key + number_at(shape), 4);
    return number;
}

void write_value(struct shape shape, uint32_t number, void *value)
{
    if (shape.value == 0)
        return;
    memset(value, 0, shape.value);
    memcpy(value, &number, shape.value < 4 ? shape.value : 4);
}

void *counted_keys(struct shape shape, size_t count)
{
    uint8_t *keys = numbers_of(count * shape.key);

    for (uint32_t number = 0; number < count; number++)
        write_key(shape, number, keys + number * shape.key);
    return keys;
}

void *counted_values(struct shape shape, size_t count)
{
    uint8_t *values = numbers_of(count * shape.value);

    for (uint32_t number = 0; number < count; number++)
        write_value(shape, 10 * number, values + number * shape.value);
    return values;
}
