/*
 * Buffers between two guard pages, which fault on any read or write. Each test runs once in every placement. A call
 * that reads or writes a byte outside of a buffer faults in one of them. When the buffers are dropped, the rest of
 * their pages is checked for writes.
 */
#ifndef BUFFERS_H
#define BUFFERS_H

#include <stddef.h>
#include <stdint.h>

#include "odht.h"

/* The placements of buffers. */
enum placement {
    BEFORE_GUARD, /* the last byte is right before a page that faults */
    BEHIND_GUARD, /* the first byte is right after such a page */
    ODD_ADDRESS,  /* bytes begin at an odd address, numbers at one that is not a multiple of 16 */
    PLACEMENTS
};

/* The bytes of a new buffer. */
enum { FILL = 7 };

/* Sets the placement of new buffers. */
void place_buffers(enum placement wanted);

/* Returns the placement of new buffers. */
enum placement placement(void);

/* Returns the words for a placement. */
const char *placement_name(enum placement of);

/* Makes a buffer of this length in bytes. Each byte is FILL. */
uint8_t *bytes_of(size_t len);

/* Makes a buffer of this length in bytes, for numbers. Each byte is FILL. */
void *numbers_of(size_t len);

/* Copies these bytes into a new buffer. */
uint8_t *copy_of(const void *bytes, size_t len);

/* Copies these numbers into a new buffer. */
void *copy_of_numbers(const void *numbers, size_t len);

/* New buffers with these elements, and with one number. */
#define BYTES(...)                                                                                \
    copy_of((const uint8_t[]){ __VA_ARGS__ }, sizeof((const uint8_t[]){ __VA_ARGS__ }))
#define U32S(...) NUMBERS_OF_TYPE(uint32_t, __VA_ARGS__)
#define U64S(...) NUMBERS_OF_TYPE(uint64_t, __VA_ARGS__)
#define SIZES(...) NUMBERS_OF_TYPE(size_t, __VA_ARGS__)
#define NUMBERS_OF_TYPE(type, ...) \
    ((type *)copy_of_numbers((const type[]){ __VA_ARGS__ }, sizeof((const type[]){ __VA_ARGS__ })))

/* A view of no bytes. */
odht_view *view_of_nothing(void);

/* Returns the number of buffers. */
size_t buffer_count(void);

/* Drops the buffers made after the first `count`, and checks the rest of their pages for writes. */
void drop_buffers_since(size_t count);

/* Asserts that nothing was written next to a buffer. */
void check_margins(void);

/* Drops all buffers. */
void drop_buffers(void);

/* Makes the pages of a buffer read-only until it is dropped. */
void freeze(const void *bytes);

/* Prints where this address is, relative to the buffer in whose pages it is. */
void describe_address(const void *address, char *text, size_t len);

#endif
