/* Bytes that look random, the same in each run: the generator of crates/odht_tests. */
#ifndef RANDOM_H
#define RANDOM_H

#include <stddef.h>
#include <stdint.h>

/* A generator, and its state. */
struct random {
    uint64_t state;
};

/* Returns the next byte: the highest of the next state. */
static inline uint8_t random_byte(struct random *random)
{
    random->state = random->state * UINT64_C(6364136223846793005) + UINT64_C(1442695040888963407);
    return (uint8_t)(random->state >> 56);
}

/* Fills `len` bytes. */
static inline void random_bytes(struct random *random, uint8_t *bytes, size_t len)
{
    for (size_t index = 0; index < len; index++)
        bytes[index] = random_byte(random);
}

/* Returns a number of four bytes, the lowest first. */
static inline uint32_t random_word(struct random *random)
{
    uint32_t low = random_byte(random);
    uint32_t second = random_byte(random);
    uint32_t third = random_byte(random);

    return low | second << 8 | third << 16 | (uint32_t)random_byte(random) << 24;
}

/* Returns a number below the bound, which is at most 2^48. */
static inline size_t random_below(struct random *random, size_t bound)
{
    size_t low = random_byte(random);

    return (low | (size_t)random_byte(random) << 8) * bound / 65536;
}

/* Returns the number of a key, which is small half of the time. */
static inline uint32_t random_key(struct random *random)
{
    return random_below(random, 2) == 0 ? random_byte(random) : random_word(random);
}

#endif
