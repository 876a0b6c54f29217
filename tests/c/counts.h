/* Counts the statuses of bytes, from ODHT_OK to ODHT_UNREACHABLE. */
#ifndef COUNTS_H
#define COUNTS_H

#include <stddef.h>
#include <stdint.h>

#include "odht.h"
#include "test.h"

enum { KINDS = ODHT_UNREACHABLE + 1 };

struct counts {
    size_t of[KINDS];
};

/* Adds one to the count of a status. */
static inline void count_status(struct counts *counts, uint32_t status)
{
    HOLDS(status < KINDS);
    counts->of[status]++;
}

/* Asserts these counts. */
static inline void check_counts(const struct counts *counts, const size_t *expected)
{
    for (size_t status = 0; status < KINDS; status++) {
        in_case("the count of status", status);
        EQUAL(counts->of[status], expected[status]);
    }
}

#endif
