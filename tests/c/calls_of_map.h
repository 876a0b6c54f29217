/* The calls of a map, for the table in calls.c. K and V are NUMBER or BYTES, k and v the numbers of bits or bytes. */

/* What to pass for a pointer to a key or value. */
#define PASSED_NUMBER(bits, it) (*(const uint##bits##_t *)(it))
#define PASSED_BYTES(count, it) ((const uint8_t *)(it))

#define CALLS_OF_MAP(shape, K, k, V, v, hash) \
    static uint32_t shape##_get_of_bytes(const uint8_t *bytes, size_t len, const void *key, \
        void *value) \
    { \
        return odht_##shape##_get(bytes, len, PASSED_##K(k, key), value); \
    } \
\
    static uint32_t shape##_get_all_of_bytes(const uint8_t *bytes, size_t len, const void *keys, \
        size_t keys_len, void *values, size_t values_len, uint8_t *found, size_t found_len) \
    { \
        return odht_##shape##_get_all(bytes, len, keys, keys_len, values, values_len, found, \
            found_len); \
    } \
\
    static uint32_t shape##_insert_of_bytes(uint8_t *bytes, size_t len, const void *key, \
        const void *value, void *former) \
    { \
        return odht_##shape##_insert(bytes, len, PASSED_##K(k, key), PASSED_##V(v, value), \
            former); \
    } \
\
    static uint32_t shape##_insert_all_of_bytes(uint8_t *bytes, size_t len, const void *keys, \
        size_t keys_len, const void *values, size_t values_len, size_t *accepted) \
    { \
        return odht_##shape##_insert_all(bytes, len, keys, keys_len, values, values_len, \
            accepted); \
    } \
\
    static uint32_t shape##_walk_of_bytes(const uint8_t *bytes, size_t len, size_t *cursor, \
        void *keys, size_t keys_len, void *values, size_t values_len, size_t *count) \
    { \
        return odht_##shape##_walk(bytes, len, cursor, keys, keys_len, values, values_len, \
            count); \
    } \
\
    static uint32_t shape##_view_get_of_bytes(const odht_view *view, const void *key, \
        void *value) \
    { \
        return odht_##shape##_view_get(view, PASSED_##K(k, key), value); \
    } \
\
    static uint32_t shape##_view_get_all_of_bytes(const odht_view *view, const void *keys, \
        size_t keys_len, void *values, size_t values_len, uint8_t *found, size_t found_len) \
    { \
        return odht_##shape##_view_get_all(view, keys, keys_len, values, values_len, found, \
            found_len); \
    } \
\
    static uint32_t shape##_build_of_bytes(const void *keys, size_t keys_len, const void *values, \
        size_t values_len, uint8_t percent, uint8_t *out, size_t out_len, size_t *len) \
    { \
        return odht_##shape##_build(keys, keys_len, values, values_len, percent, out, out_len, \
            len); \
    } \
\
    static uint32_t shape##_build_growing_of_bytes(const void *keys, size_t keys_len, \
        const void *values, size_t values_len, uint8_t *out, size_t out_len, size_t *len) \
    { \
        return odht_##shape##_build_growing(keys, keys_len, values, values_len, out, out_len, \
            len); \
    }
