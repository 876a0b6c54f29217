/*
 * The calls of every shape with the same types, so that a test can run with each shape. Keys and values are pointers to
 * their bytes. The values of sets have no bytes, and the calls of sets ignore pointers to values.
 */
#ifndef CALLS_H
#define CALLS_H

#include <stddef.h>
#include <stdint.h>

#include "odht.h"
#include "generated/shape_list.h"

/* The hash function of keys. */
enum hash { FX, UN, XXH64 };

/* The lengths in bytes of keys and values, and the hash. */
struct shape {
    size_t key;
    size_t value;
    enum hash hash;
};

/* A shape and its calls. `keys` and `values` are arrays of `count` elements. */
struct calls {
    const char *name;
    struct shape shape;
    uint32_t (*bytes_needed)(size_t items, uint8_t percent, size_t *len);
    uint32_t (*init)(uint8_t *bytes, size_t len, size_t items, uint8_t percent);
    uint32_t (*open)(const uint8_t *bytes, size_t len);
    uint32_t (*check)(const uint8_t *bytes, size_t len);
    uint32_t (*check_within)(const uint8_t *bytes, size_t len, size_t groups);
    uint32_t (*open_at)(const uint8_t *bytes, size_t len, size_t *slot);
    uint32_t (*check_at)(const uint8_t *bytes, size_t len, size_t *slot);
    uint32_t (*check_within_at)(const uint8_t *bytes, size_t len, size_t groups, size_t *slot);
    uint32_t (*len)(const uint8_t *bytes, size_t len, size_t *count);
    uint32_t (*sizes)(const uint8_t *bytes, size_t len, size_t *slots, size_t *maximum,
                      uint8_t *percent);
    uint32_t (*table_len)(const uint8_t *bytes, size_t len, size_t *found);
    uint32_t (*insert_order)(const uint8_t *bytes, size_t len, size_t *slots, size_t slots_len);
    uint32_t (*grow)(const uint8_t *bytes, size_t len, uint8_t *out, size_t out_len,
                     size_t *grown);
    uint32_t (*open_view)(const uint8_t *bytes, size_t len, odht_view *view);
    size_t (*view_len)(const odht_view *view);
    uint32_t (*get)(const uint8_t *bytes, size_t len, const void *key, void *value);
    uint32_t (*get_all)(const uint8_t *bytes, size_t len, const void *keys, size_t keys_len,
                        void *values, size_t values_len, uint8_t *found, size_t found_len);
    uint32_t (*insert)(uint8_t *bytes, size_t len, const void *key, const void *value,
                       void *former);
    uint32_t (*insert_all)(uint8_t *bytes, size_t len, const void *keys, size_t keys_len,
                           const void *values, size_t values_len, size_t *accepted);
    uint32_t (*walk)(const uint8_t *bytes, size_t len, size_t *cursor, void *keys, size_t keys_len,
                     void *values, size_t values_len, size_t *count);
    uint32_t (*view_get)(const odht_view *view, const void *key, void *value);
    uint32_t (*view_get_all)(const odht_view *view, const void *keys, size_t keys_len,
                             void *values, size_t values_len, uint8_t *found, size_t found_len);
    uint32_t (*build)(const void *keys, size_t keys_len, const void *values, size_t values_len,
                      uint8_t percent, uint8_t *out, size_t out_len, size_t *len);
    uint32_t (*build_growing)(const void *keys, size_t keys_len, const void *values,
                              size_t values_len, uint8_t *out, size_t out_len, size_t *len);
};

/* The index of each shape in the list of all shapes, and their number. */
#define PLACE_OF_MAP(name, key_kind, key, value_kind, value, hash) AT_##name,
#define PLACE_OF_SET(name, key_kind, key, hash) AT_##name,
enum { EACH_SHAPE(PLACE_OF_MAP, PLACE_OF_SET) SHAPES };
extern const struct calls all_shapes[SHAPES];

/* From 32-bit numbers to 32-bit numbers, from 64-bit numbers to 32-bit ones, from 16 bytes to 32-bit numbers. */
extern const struct calls *const u32_u32_calls;
extern const struct calls *const u64_u32_calls;
extern const struct calls *const b16_u32_calls;

#endif
