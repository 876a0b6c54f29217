/* Counts a program's requests for memory, and lets one of them fail. It is linked into programs that are built for
   tests, between the kit's functions for memory and the C library. ODHT_FAIL_REQUEST=N has the Nth request fail, and
   ODHT_REQUESTS=FILE has the number of requests written to a file when the program ends. */
#include <stddef.h>
#include <stdio.h>
#include <stdlib.h>

static unsigned long requests;

static int fails(void) {
    const char *number = getenv("ODHT_FAIL_REQUEST");
    requests += 1;
    return number != NULL && strtoul(number, NULL, 10) == requests;
}

void *counted_malloc(size_t size) {
    return fails() ? NULL : malloc(size);
}

void *counted_realloc(void *place, size_t size) {
    return fails() ? NULL : realloc(place, size);
}

__attribute__((destructor)) static void write_count(void) {
    const char *name = getenv("ODHT_REQUESTS");
    FILE *file = name == NULL ? NULL : fopen(name, "w");
    if (file != NULL) {
        fprintf(file, "%lu\n", requests);
        fclose(file);
    }
}
