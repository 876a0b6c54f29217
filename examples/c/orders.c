/* Finds orders of inserts, for tables of both shapes. */
#include <inttypes.h>
#include <stdint.h>
#include <stdio.h>
#include <string.h>

#include "odht.h"
#include "orders.h"
#include "say.h"

/* Inserts the keys into an empty table of 16 slots, and returns whether its bytes are `bytes`. */
static void insert_again(const char *what, const uint64_t *keys, const uint32_t *values,
                         const uint8_t *bytes)
{
    uint8_t again[256];

    must_be_ok(odht_u64_u32_init(again, sizeof again, 13, 87));
    must_be_ok(odht_u64_u32_insert_all(again, sizeof again, keys, 3, values, 3, NULL));
    printf("%s: %s bytes\n", what, memcmp(again, bytes, sizeof again) == 0 ? "same" : "other");
}

/* Returns the index of a slot's pair in the walk: the number of listed slots before it, because a walk is in slot
   order. */
static size_t place_in_walk(size_t slot, const size_t *slots)
{
    size_t place = 0;
    for (size_t index = 0; index < 3; index++)
        place += slots[index] < slot;
    return place;
}

void order_of_inserts(void)
{
    static const uint64_t collide[] = {3, 19, 35};
    uint64_t keys[3], ordered_keys[3];
    uint32_t values[3] = {30, 190, 350}, ordered_values[3];
    uint8_t bytes[256];
    size_t slots[3];
    size_t cursor = 0;
    size_t count = 0;

    printf("\nan order of inserts\n");
    say_line("init", odht_u64_u32_init(bytes, sizeof bytes, 13, 87));
    say("insert_all 3 19 35",
        odht_u64_u32_insert_all(bytes, sizeof bytes, collide, 3, values, 3, &count));
    printf(", %zu accepted\n", count);
    must_be_ok(odht_u64_u32_walk(bytes, sizeof bytes, &cursor, keys, 3, values, 3, NULL));
    insert_again("inserts in slot order", keys, values, bytes);
    say("insert_order", odht_u64_u32_insert_order(bytes, sizeof bytes, slots, 3));
    say_slots(3, slots);
    for (size_t index = 0; index < 3; index++) {
        size_t place = place_in_walk(slots[index], slots);
        ordered_keys[index] = keys[place];
        ordered_values[index] = values[place];
    }
    insert_again("inserts in this order", ordered_keys, ordered_values, bytes);
    say_line("insert_order into 2 places",
             odht_u64_u32_insert_order(bytes, sizeof bytes, slots, 2));
}

/* First each key is in its home. Then two keys are in each other's homes. */
void unmade_table(void)
{
    uint8_t bytes[1392];
    size_t slots[48];

    printf("\na valid table that no inserts make\n");
    say_line("init", odht_b16_u32_init(bytes, sizeof bytes, 48, 87));
    for (uint8_t number = 0; number < 64; number++) {
        uint8_t key[16] = {0};
        key[12] = number;
        if (number < 33 || number > 48)
            must_be_ok(odht_b16_u32_insert(bytes, sizeof bytes, key, number, NULL));
    }
    say_line("insert_order", odht_b16_u32_insert_order(bytes, sizeof bytes, slots, 48));
    bytes[44] = 1;
    bytes[64] = 0;
    say_line("check where 0 and 1 change places", odht_b16_u32_check(bytes, sizeof bytes));
    say_line("insert_order", odht_b16_u32_insert_order(bytes, sizeof bytes, slots, 48));
}
