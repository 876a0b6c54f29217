
/* The calls of a shape with values: K and V are ODHT_NUMBER or ODHT_BYTES, k and v the numbers of bits or bytes. */
#define ODHT_DECLARE_MAP(S, K, k, V, v) \
    ODHT_TABLE_CALLS(S##_) \
\
    ODHT_CALL(uint32_t, S##_get, \
        (const uint8_t *bytes, size_t bytes_len, K##_GIVEN(k, key), V##_WANTED(v, value)), \
        V##_UNWANTED(v) \
        return odht_symbol_##S##_get( \
            odht_read_uint8_t(bytes, bytes_len), bytes_len, key, value ? value : unwanted);) \
\
    ODHT_CALL(uint32_t, S##_get_all, \
        (const uint8_t *bytes, size_t bytes_len, const K##_ITEM(k) *keys, size_t keys_len, \
            V##_ITEM(v) *values, size_t values_len, uint8_t *found, size_t found_len), \
        return odht_symbol_##S##_get_all( \
            odht_read_uint8_t(bytes, bytes_len), bytes_len, K##_READ(k, keys, keys_len), keys_len, \
            V##_WRITE(v, values, values_len), values_len, \
            odht_write_uint8_t(found, found_len), found_len);) \
\
    ODHT_CALL(uint32_t, S##_insert, \
        (uint8_t *bytes, size_t bytes_len, K##_GIVEN(k, key), V##_GIVEN(v, value), \
            V##_WANTED(v, former)), \
        V##_UNWANTED(v) \
        return odht_symbol_##S##_insert( \
            odht_write_uint8_t(bytes, bytes_len), bytes_len, key, value, \
            former ? former : unwanted);) \
\
    ODHT_CALL(uint32_t, S##_insert_all, \
        (uint8_t *bytes, size_t bytes_len, const K##_ITEM(k) *keys, size_t keys_len, \
            const V##_ITEM(v) *values, size_t values_len, size_t *accepted), \
        size_t unwanted = 0; \
        return odht_symbol_##S##_insert_all( \
            odht_write_uint8_t(bytes, bytes_len), bytes_len, K##_READ(k, keys, keys_len), \
            keys_len, V##_READ(v, values, values_len), values_len, \
            accepted ? accepted : &unwanted);) \
\
    ODHT_CALL(uint32_t, S##_walk, \
        (const uint8_t *bytes, size_t bytes_len, size_t *cursor, K##_ITEM(k) *keys, \
            size_t keys_len, V##_ITEM(v) *values, size_t values_len, size_t *count), \
        size_t unwanted = 0; \
        return odht_symbol_##S##_walk( \
            odht_read_uint8_t(bytes, bytes_len), bytes_len, cursor, \
            K##_WRITE(k, keys, keys_len), keys_len, V##_WRITE(v, values, values_len), values_len, \
            count ? count : &unwanted);) \
\
    ODHT_CALL(uint32_t, S##_view_get, \
        (const odht_view *view, K##_GIVEN(k, key), V##_WANTED(v, value)), \
        V##_UNWANTED(v) \
        return odht_symbol_##S##_view_get(view, key, value ? value : unwanted);) \
\
    ODHT_CALL(uint32_t, S##_view_get_all, \
        (const odht_view *view, const K##_ITEM(k) *keys, size_t keys_len, V##_ITEM(v) *values, \
            size_t values_len, uint8_t *found, size_t found_len), \
        return odht_symbol_##S##_view_get_all( \
            view, K##_READ(k, keys, keys_len), keys_len, V##_WRITE(v, values, values_len), \
            values_len, odht_write_uint8_t(found, found_len), found_len);) \
\
    ODHT_CALL(uint32_t, S##_build, \
        (const K##_ITEM(k) *keys, size_t keys_len, const V##_ITEM(v) *values, size_t values_len, \
            uint8_t percent, uint8_t *out, size_t out_len, size_t *len), \
        size_t unwanted = 0; \
        return odht_symbol_##S##_build( \
            K##_READ(k, keys, keys_len), keys_len, V##_READ(v, values, values_len), values_len, \
            percent, odht_write_uint8_t(out, out_len), out_len, len ? len : &unwanted);) \
\
    ODHT_CALL(uint32_t, S##_build_growing, \
        (const K##_ITEM(k) *keys, size_t keys_len, const V##_ITEM(v) *values, size_t values_len, \
            uint8_t *out, size_t out_len, size_t *len), \
        size_t unwanted = 0; \
        return odht_symbol_##S##_build_growing( \
            K##_READ(k, keys, keys_len), keys_len, V##_READ(v, values, values_len), values_len, \
            odht_write_uint8_t(out, out_len), out_len, len ? len : &unwanted);)
