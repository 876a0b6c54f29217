/*
 * Counts the library's allocations, and makes those fail that a test selects. The program is linked with
 * -Wl,--wrap=malloc, and the same option for each other name in run.sh, so that the archive calls these functions.
 */
#ifndef REQUESTS_H
#define REQUESTS_H

#include <stddef.h>

/* The number of no allocation. */
enum { NO_REQUEST = 0 };

/* Counts allocations from 0 again. The one with this number, from 1 on, fails. With NO_REQUEST none fails. */
void count_requests(size_t failing);

/* Counts from 0 again, and lets all allocations fail. */
void refuse_requests(void);

/* Returns the number of allocations. */
size_t requests(void);

/* Returns the number of blocks of memory that were not freed. */
size_t blocks_in_use(void);

#endif
