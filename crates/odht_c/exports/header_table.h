
/* The calls of every shape, described above under "The calls". P is the name of the shape, followed by _. */
#define ODHT_TABLE_CALLS(P) \
    ODHT_CALL(uint32_t, P##bytes_needed, (size_t max_item_count, uint8_t percent, size_t *len), \
        size_t unwanted = 0; \
        return odht_symbol_##P##bytes_needed(max_item_count, percent, len ? len : &unwanted);) \
\
    ODHT_CALL(uint32_t, P##init, \
        (uint8_t *bytes, size_t bytes_len, size_t max_item_count, uint8_t percent), \
        return odht_symbol_##P##init( \
            odht_write_uint8_t(bytes, bytes_len), bytes_len, max_item_count, percent);) \
\
    ODHT_CALL(uint32_t, P##open, (const uint8_t *bytes, size_t bytes_len), \
        return odht_symbol_##P##open(odht_read_uint8_t(bytes, bytes_len), bytes_len);) \
\
    ODHT_CALL(uint32_t, P##check, (const uint8_t *bytes, size_t bytes_len), \
        return odht_symbol_##P##check(odht_read_uint8_t(bytes, bytes_len), bytes_len);) \
\
    ODHT_CALL(uint32_t, P##check_within, (const uint8_t *bytes, size_t bytes_len, size_t groups), \
        return odht_symbol_##P##check_within( \
            odht_read_uint8_t(bytes, bytes_len), bytes_len, groups);) \
\
    ODHT_CALL(uint32_t, P##open_at, (const uint8_t *bytes, size_t bytes_len, size_t *slot), \
        size_t unwanted = 0; \
        return odht_symbol_##P##open_at( \
            odht_read_uint8_t(bytes, bytes_len), bytes_len, slot ? slot : &unwanted);) \
    ODHT_CALL(uint32_t, P##check_at, (const uint8_t *bytes, size_t bytes_len, size_t *slot), \
        size_t unwanted = 0; \
        return odht_symbol_##P##check_at( \
            odht_read_uint8_t(bytes, bytes_len), bytes_len, slot ? slot : &unwanted);) \
    ODHT_CALL(uint32_t, P##check_within_at, \
        (const uint8_t *bytes, size_t bytes_len, size_t groups, size_t *slot), \
        size_t unwanted = 0; \
        return odht_symbol_##P##check_within_at( \
            odht_read_uint8_t(bytes, bytes_len), bytes_len, groups, slot ? slot : &unwanted);) \
\
    ODHT_CALL(uint32_t, P##len, (const uint8_t *bytes, size_t bytes_len, size_t *count), \
        size_t unwanted = 0; \
        return odht_symbol_##P##len( \
            odht_read_uint8_t(bytes, bytes_len), bytes_len, count ? count : &unwanted);) \
\
    ODHT_CALL(uint32_t, P##sizes, \
        (const uint8_t *bytes, size_t bytes_len, size_t *slots, size_t *max_item_count, \
            uint8_t *percent), \
        size_t unwanted_slots = 0; \
        size_t unwanted_count = 0; \
        uint8_t unwanted_percent = 0; \
        return odht_symbol_##P##sizes( \
            odht_read_uint8_t(bytes, bytes_len), bytes_len, slots ? slots : &unwanted_slots, \
            max_item_count ? max_item_count : &unwanted_count, \
            percent ? percent : &unwanted_percent);) \
\
    ODHT_CALL(uint32_t, P##table_len, (const uint8_t *bytes, size_t bytes_len, size_t *len), \
        size_t unwanted = 0; \
        return odht_symbol_##P##table_len( \
            odht_read_uint8_t(bytes, bytes_len), bytes_len, len ? len : &unwanted);) \
\
    ODHT_CALL(uint32_t, P##insert_order, \
        (const uint8_t *bytes, size_t bytes_len, size_t *slots, size_t slots_len), \
        return odht_symbol_##P##insert_order( \
            odht_read_uint8_t(bytes, bytes_len), bytes_len, odht_write_size_t(slots, slots_len), \
            slots_len);) \
\
    ODHT_CALL(uint32_t, P##grow, \
        (const uint8_t *bytes, size_t bytes_len, uint8_t *out, size_t out_len, size_t *len), \
        size_t unwanted = 0; \
        return odht_symbol_##P##grow( \
            odht_read_uint8_t(bytes, bytes_len), bytes_len, odht_write_uint8_t(out, out_len), \
            out_len, len ? len : &unwanted);) \
\
    ODHT_CALL(uint32_t, P##open_view, (const uint8_t *bytes, size_t bytes_len, odht_view *view), \
        odht_view opened = ODHT_NO_VIEW; \
        uint32_t status = odht_symbol_##P##open_view( \
            odht_read_uint8_t(bytes, bytes_len), bytes_len, &opened); \
        if (status == ODHT_OK) \
            *view = opened; \
        return status;) \
\
    ODHT_CALL(size_t, P##view_len, (const odht_view *view), \
        return odht_symbol_##P##view_len(view);)
