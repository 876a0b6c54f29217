/* Counts a program's requests for memory, and lets one of them fail. It is loaded before the C library, of a program
   whose buffer of input is its first request for 65536 bytes: those before that one are not counted. ODHT_FAIL_REQUEST=N
   has the Nth request fail, and ODHT_REQUESTS=FILE has the number of requests written to a file when the program ends. */
#define _GNU_SOURCE
#include <dlfcn.h>
#include <errno.h>
#include <stddef.h>
#include <stdio.h>
#include <stdlib.h>

static unsigned long requests;

static int fails(size_t size) {
    const char *number = getenv("ODHT_FAIL_REQUEST");
    if (requests == 0 && size != 65536) return 0;
    requests += 1;
    if (number == NULL || strtoul(number, NULL, 10) != requests) return 0;
    errno = ENOMEM;
    return 1;
}

void *malloc(size_t size) {
    static void *(*next)(size_t);
    if (next == NULL) next = (void *(*)(size_t))dlsym(RTLD_NEXT, "malloc");
    return fails(size) ? NULL : next(size);
}

void *realloc(void *place, size_t size) {
    static void *(*next)(void *, size_t);
    if (next == NULL) next = (void *(*)(void *, size_t))dlsym(RTLD_NEXT, "realloc");
    return fails(size) ? NULL : next(place, size);
}

/* dlsym may ask for memory by this one itself */
void *calloc(size_t count, size_t size) {
    static void *(*next)(size_t, size_t);
    static int is_asked;
    if (is_asked) return NULL;
    if (next == NULL) {
        is_asked = 1;
        next = (void *(*)(size_t, size_t))dlsym(RTLD_NEXT, "calloc");
        is_asked = 0;
    }
    return fails(count * size) ? NULL : next(count, size);
}

__attribute__((destructor)) static void write_count(void) {
    const char *name = getenv("ODHT_REQUESTS");
    unsigned long made = requests;
    requests = 0; /* what writes the file asks for memory too */
    FILE *file = name == NULL ? NULL : fopen(name, "w");
    if (file != NULL) {
        fprintf(file, "%lu\n", made);
        fclose(file);
    }
}
