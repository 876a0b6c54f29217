/* Compares the results of calls with the expected ones. */
#ifndef EXPECT_H
#define EXPECT_H

#include <inttypes.h>
#include <stdio.h>
#include <stdlib.h>

/* The number of results that were compared. */
static unsigned compared = 0;

/* Stops the program if a number, such as a status, is not the expected one. */
static inline void expect(uint64_t number, uint64_t wanted, const char *what, const char *file,
                          int line)
{
    compared++;
    if (number != wanted) {
        fprintf(stderr, "%s:%d: %s: %" PRIu64 " and not %" PRIu64 "\n", file, line, what, number,
                wanted);
        exit(EXIT_FAILURE);
    }
}

#define EXPECT(what, wanted) expect(what, wanted, #what, __FILE__, __LINE__)

#endif
