/* What the example prints about opened tables. */
#ifndef VIEWS_H
#define VIEWS_H

#include <stddef.h>
#include <stdint.h>

/* Looks keys up in a view of the first table. */
void look_up_in_view(const uint8_t *bytes, size_t length);

/* A view of a table with keys of 16 bytes, which finds what is inserted into its bytes later. */
void insert_behind_view(uint8_t *bytes, size_t length, const uint8_t key[16]);

#endif
