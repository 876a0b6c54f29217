/* The calls of every shape. Numbers in memory are little-endian, as in a table: odht supports only such machines. */
#include "calls.h"

#include "calls_of_map.h"
#include "calls_of_set.h"

EACH_SHAPE(CALLS_OF_MAP, CALLS_OF_SET)

/* How many bytes a number of so many bits has, and so many bytes. */
#define LENGTH_NUMBER(bits) ((bits) / 8)
#define LENGTH_BYTES(count) (count)

/* The row of a shape. */
#define ROW(shape, key, value, hash) \
    { \
        #shape, { key, value, hash }, odht_##shape##_bytes_needed, odht_##shape##_init, \
        odht_##shape##_open, odht_##shape##_check, odht_##shape##_check_within, odht_##shape##_open_at, \
        odht_##shape##_check_at, odht_##shape##_check_within_at, odht_##shape##_len, odht_##shape##_sizes, \
        odht_##shape##_table_len, odht_##shape##_insert_order, odht_##shape##_grow, \
        odht_##shape##_open_view, odht_##shape##_view_len, shape##_get_of_bytes, \
        shape##_get_all_of_bytes, shape##_insert_of_bytes, shape##_insert_all_of_bytes, \
        shape##_walk_of_bytes, shape##_view_get_of_bytes, shape##_view_get_all_of_bytes, \
        shape##_build_of_bytes, shape##_build_growing_of_bytes \
    }

#define ROW_OF_MAP(shape, K, k, V, v, hash) ROW(shape, LENGTH_##K(k), LENGTH_##V(v), hash),
#define ROW_OF_SET(shape, K, k, hash) ROW(shape, LENGTH_##K(k), 0, hash),

const struct calls all_shapes[SHAPES] = { EACH_SHAPE(ROW_OF_MAP, ROW_OF_SET) };

const struct calls *const u32_u32_calls = &all_shapes[AT_u32_u32];
const struct calls *const u64_u32_calls = &all_shapes[AT_u64_u32];
const struct calls *const b16_u32_calls = &all_shapes[AT_b16_u32];
