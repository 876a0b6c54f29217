/* Prints the results of calls. */
#ifndef SAY_H
#define SAY_H

#include <inttypes.h>
#include <stddef.h>
#include <stdint.h>
#include <stdio.h>
#include <stdlib.h>

#include "odht.h"

/* Prints "what: 0 ok", without the end of the line. */
static inline void say(const char *what, uint32_t status)
{
    printf("%s: %" PRIu32 " %s", what, status, odht_status_name(status));
}

static inline void say_line(const char *what, uint32_t status)
{
    say(what, status);
    printf("\n");
}

/* Stops the program if a call failed that cannot fail here. */
static inline void must_be_ok(uint32_t status)
{
    if (status != ODHT_OK) {
        say_line("unexpected", status);
        exit(EXIT_FAILURE);
    }
}

/* Prints the result of a lookup. */
static inline void say_value(uint64_t key, uint32_t status, uint32_t value)
{
    printf("get %" PRIu64, key);
    say("", status);
    if (status == ODHT_OK)
        printf(", value %" PRIu32, value);
    printf("\n");
}

static inline void say_former(const char *what, uint32_t status, uint32_t former)
{
    say(what, status);
    if (status == ODHT_REPLACED)
        printf(", the former value is %" PRIu32, former);
    printf("\n");
}

static inline void say_found(size_t count, const uint8_t *found, const uint32_t *values)
{
    printf(", found");
    for (size_t index = 0; index < count; index++)
        printf(" %d", found[index]);
    printf(", values");
    for (size_t index = 0; index < count; index++)
        printf(" %" PRIu32, values[index]);
    printf("\n");
}

/* Prints the slots that an order of inserts lists. */
static inline void say_slots(size_t count, const size_t *slots)
{
    printf(", slots");
    for (size_t index = 0; index < count; index++)
        printf(" %zu", slots[index]);
    printf("\n");
}

#endif
