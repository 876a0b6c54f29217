/* ---- The calls ----
 *
 * S is the name of a shape, such as u64_u32. A number, as a key or value, is passed by value. A key or value of N bytes
 * is passed as a pointer to its bytes. *value and *former are a number or N bytes. A call writes an out-parameter only
 * if it returns a status whose text below names it.
 *
 * The prototypes of odht_u64_u32_*, as they are with ODHT_PLAIN defined:
 *
 *     uint32_t odht_u64_u32_bytes_needed(size_t max_item_count, uint8_t percent, size_t *len);
 *     uint32_t odht_u64_u32_init(uint8_t *bytes, size_t bytes_len, size_t max_item_count, uint8_t percent);
 *     uint32_t odht_u64_u32_open(const uint8_t *bytes, size_t bytes_len);
 *     uint32_t odht_u64_u32_check(const uint8_t *bytes, size_t bytes_len);
 *     uint32_t odht_u64_u32_check_within(const uint8_t *bytes, size_t bytes_len, size_t groups);
 *     uint32_t odht_u64_u32_open_at(const uint8_t *bytes, size_t bytes_len, size_t *slot);
 *     uint32_t odht_u64_u32_check_at(const uint8_t *bytes, size_t bytes_len, size_t *slot);
 *     uint32_t odht_u64_u32_check_within_at(const uint8_t *bytes, size_t bytes_len, size_t groups, size_t *slot);
 *     uint32_t odht_u64_u32_len(const uint8_t *bytes, size_t bytes_len, size_t *count);
 *     uint32_t odht_u64_u32_sizes(const uint8_t *bytes, size_t bytes_len, size_t *slots, size_t *max_item_count,
 *         uint8_t *percent);
 *     uint32_t odht_u64_u32_table_len(const uint8_t *bytes, size_t bytes_len, size_t *len);
 *     uint32_t odht_u64_u32_get(const uint8_t *bytes, size_t bytes_len, uint64_t key, uint32_t *value);
 *     uint32_t odht_u64_u32_get_all(const uint8_t *bytes, size_t bytes_len, const uint64_t *keys, size_t keys_len,
 *         uint32_t *values, size_t values_len, uint8_t *found, size_t found_len);
 *     uint32_t odht_u64_u32_insert(uint8_t *bytes, size_t bytes_len, uint64_t key, uint32_t value, uint32_t *former);
 *     uint32_t odht_u64_u32_insert_all(uint8_t *bytes, size_t bytes_len, const uint64_t *keys, size_t keys_len,
 *         const uint32_t *values, size_t values_len, size_t *accepted);
 *     uint32_t odht_u64_u32_walk(const uint8_t *bytes, size_t bytes_len, size_t *cursor, uint64_t *keys,
 *         size_t keys_len, uint32_t *values, size_t values_len, size_t *count);
 *     uint32_t odht_u64_u32_insert_order(const uint8_t *bytes, size_t bytes_len, size_t *slots, size_t slots_len);
 *     uint32_t odht_u64_u32_grow(const uint8_t *bytes, size_t bytes_len, uint8_t *out, size_t out_len, size_t *len);
 *     uint32_t odht_u64_u32_build(const uint64_t *keys, size_t keys_len, const uint32_t *values, size_t values_len,
 *         uint8_t percent, uint8_t *out, size_t out_len, size_t *len);
 *     uint32_t odht_u64_u32_build_growing(const uint64_t *keys, size_t keys_len, const uint32_t *values,
 *         size_t values_len, uint8_t *out, size_t out_len, size_t *len);
 *     uint32_t odht_u64_u32_open_view(const uint8_t *bytes, size_t bytes_len, odht_view *view);
 *     uint32_t odht_u64_u32_view_get(const odht_view *view, uint64_t key, uint32_t *value);
 *     uint32_t odht_u64_u32_view_get_all(const odht_view *view, const uint64_t *keys, size_t keys_len,
 *         uint32_t *values, size_t values_len, uint8_t *found, size_t found_len);
 *     size_t odht_u64_u32_view_len(const odht_view *view);
 *
 * Other shapes have other types of keys and values. The end of this comment lists what differs for a set.
 *
 * odht_S_bytes_needed(max_item_count, percent, *len)
 *     Computes the length of a table for max_item_count items. percent is the highest percentage of its slots that may
 *     be occupied, 1 to 100.
 *     OK: *len is the length in bytes. BAD_PERCENT. CAPACITY: no slot count is large enough, or the length does not
 *     fit size_t.
 *
 * odht_S_init(bytes, bytes_len, max_item_count, percent)
 *     Writes an empty table over the bytes. bytes_len must be the length that odht_S_bytes_needed returns for the same
 *     count and percentage.
 *     OK: the bytes are the empty table. BAD_PERCENT. CAPACITY. INIT_LENGTH: bytes_len is not that length. With
 *     all statuses except OK the bytes are unchanged.
 *     Cost: one pass over the bytes.
 *
 * odht_S_open(bytes, bytes_len)
 *     Checks the header, the length and the first ten slots, in constant time. This call is optional: each call below
 *     checks the header and the length itself, except lookups in a view.
 *     OK: the other calls accept the bytes. The slots after the first ten were not checked.
 *     An error, @OPENING@.
 *
 * odht_S_check(bytes, bytes_len)
 *     Checks every byte. If it accepts the bytes, all comments here are true for them.
 *     OK: the bytes are valid. An error, @CHECK@: the first in the order that enum odht_status describes.
 *     odht_S_check_at also returns its slot.
 *     Cost: one pass over the slots. For each occupied slot it reads the control bytes of the key's probe order up to
 *     that slot, sixteen at a time. It compares the key with each earlier key of that order that has the same tag. It
 *     allocates nothing.
 *     If the hashes of the keys vary, the check takes up to three times as long as one lookup of each key. At 87
 *     percent it takes up to 1.4 times as long. If many keys have one hash, by chance or by forgery, it compares up to
 *     every pair of keys: the time grows with the square of the number of slots. bench/README.md lists times. Use
 *     odht_S_check_within for untrusted bytes.
 *
 * odht_S_check_within(bytes, bytes_len, groups)
 *     Makes the check of odht_S_check in bounded time, for untrusted bytes. It also checks that the probe order from
 *     each slot has a free slot within the given number of groups of sixteen control bytes. So no search, for a present
 *     or an absent key, reads more groups. Tables of keys whose hashes vary stay within ODHT_DEFAULT_GROUPS. A bound of
 *     0 rejects every table.
 *     OK: the bytes are valid, and no search reads more groups. An error, @CHECK@, as for odht_S_check.
 *     SEARCH_TOO_LONG: from some slot, a search may read more groups. The searches for all keys in the table can still
 *     be within the bound. This is checked after @BEFORE_BOUND@ and before @BEHIND_BOUND@.
 *     Cost for s slots: it reads at most 2 * s * groups groups, and compares at most 16 * s * groups keys. It allocates
 *     nothing. With s / 16 groups or more it returns the status of odht_S_check (the contract does not state this).
 *
 * odht_S_open_at(bytes, bytes_len, *slot)
 *     Works like odht_S_open, and writes the slot of the error. Slots are numbered from 0.
 *     NON_ZERO_EMPTY, CONTROL_MISMATCH: *slot is the slot. OK, and all other errors: *slot is ODHT_NO_SLOT.
 *
 * odht_S_check_at(bytes, bytes_len, *slot)
 *     Works like odht_S_check, and writes the slot of the first error. Slots are numbered from 0.
 *     NON_ZERO_EMPTY, CONTROL_MISMATCH, BAD_FREE_CONTROL, UNREACHABLE: *slot is the slot. MIRROR_MISMATCH: *slot is the
 *     slot, 0 to 15, whose control byte the mirror does not repeat. OK, and all other errors: *slot is ODHT_NO_SLOT.
 *
 * odht_S_check_within_at(bytes, bytes_len, groups, *slot)
 *     Works like odht_S_check_within, and writes the slot of the first error, as odht_S_check_at does.
 *     SEARCH_TOO_LONG: *slot is the first slot from which a search may be too long.
 *
 * odht_S_len(bytes, bytes_len, *count)
 *     Reads the number of items from the header. It may be wrong unless odht_S_check has accepted the bytes, so compare
 *     it with bytes_len before you allocate: no table holds more items than bytes.
 *     OK: *count is the number. An error, @HEADER@. Constant time.
 *
 * odht_S_sizes(bytes, bytes_len, *slots, *max_item_count, *percent)
 *     Reads the slot count and the load factor from the header, and computes the maximum number of items from both.
 *     The load factor is in percent, rounded down. So it may be one less than the percentage that the table was made
 *     with.
 *     OK: all three are written. An error, @HEADER@. Constant time.
 *
 * odht_S_table_len(bytes, bytes_len, *len)
 *     Computes the length of the table at the start of longer bytes from its header. Use it to find a table inside a
 *     file, and then pass exactly *len bytes to the other calls. It reads no slots.
 *     OK: *len is the length in bytes, at most bytes_len. An error, @HEADER@. WRONG_LENGTH: bytes_len is below the
 *     length of the table. Constant time.
 *
 * odht_S_get(bytes, bytes_len, key, *value)
 *     Looks up a key.
 *     OK: the key is present, and *value is its value. ABSENT. An error, @HEADER@.
 *     Cost: if hashes vary, most searches read one group of sixteen control bytes. No search reads more than
 *     slots / 16 groups.
 *
 * odht_S_get_all(bytes, bytes_len, keys, keys_len, values, values_len, found, found_len)
 *     Looks up many keys, and checks the header and the length only once.
 *     OK: for a present key, found[i] is 1 and values[i] is its value. For an absent key, found[i] is 0 and values[i]
 *     is unchanged. BAD_LENGTHS: the three lengths are not equal. An error, @HEADER@.
 *
 * odht_S_insert(bytes, bytes_len, key, value, *former)
 *     Inserts a key with its value, or replaces the value of a present key.
 *     OK: the key was new. REPLACED: the key was present, and *former is the value that it had. FULL: the key is new,
 *     and the table is at its maximum. An error, @HEADER@. After FULL and the errors nothing is changed.
 *     Cost: it reads the same number of groups as odht_S_get.
 *
 * odht_S_insert_all(bytes, bytes_len, keys, keys_len, values, values_len, *accepted)
 *     Inserts keys[i] with values[i] for each i in order, as odht_S_insert does, and stops at the first FULL.
 *     OK: all pairs are inserted, and *accepted is keys_len. FULL: the first *accepted pairs are inserted, and the next
 *     key is new. BAD_LENGTHS: keys_len is not values_len. An error, @HEADER@. After BAD_LENGTHS and the errors nothing
 *     is changed.
 *
 * odht_S_walk(bytes, bytes_len, *cursor, keys, keys_len, values, values_len, *count)
 *     Writes the pairs of the table to two arrays in the order of the slots, one batch in each call. Set *cursor to 0
 *     first. Each call continues at slot *cursor and moves it. The arrays may have any length except 0:
 *
 *         do {
 *             status = odht_S_walk(bytes, len, &cursor, keys, 64, values, 64, &count);
 *             if (status != ODHT_OK && status != ODHT_TOO_SMALL)
 *                 break;
 *             use the first count pairs
 *         } while (status == ODHT_TOO_SMALL);
 *
 *     OK: these *count pairs are the last, and *cursor is the slot count. *count is 0 if *cursor was the slot count or
 *     above. TOO_SMALL: the arrays are full, and there are more pairs. BAD_LENGTHS: keys_len is not values_len. An
 *     error, @HEADER@. After BAD_LENGTHS and the errors the arrays, *cursor and *count are unchanged. A call writes
 *     only the first *count items of each array.
 *     A walk does not use the header's item count. For any bytes without the errors @HEADER@ it writes at most one pair
 *     for each slot. So all pairs together take less than bytes_len bytes.
 *     Cost: it reads the control bytes from the old *cursor to the new one, and the entries of the pairs.
 *
 * odht_S_insert_order(bytes, bytes_len, slots, slots_len)
 *     Finds an order of inserts that makes exactly these bytes, and writes it as a list of slots. To make the bytes,
 *     insert the pairs of these slots, in this order, into an empty table of the same slot count and load factor. For
 *     some valid tables there is no such order.
 *     OK: slots holds the occupied slots, each once, in such an order. Slots are numbered from 0. UNMADE: no list of
 *     inserts makes the table, with growths or without, and the content of slots is unspecified. An error of the whole
 *     check, @CHECK@. BAD_LENGTHS: the bytes are valid, and slots_len is not the number of items.
 *     Cost: the whole check, then passes over the items that are not in the order yet. Each pass ends with a sort of
 *     the items that are left. The call allocates nothing.
 *     - Without items that must follow an item of a later slot there is one pass. Each such item adds at most one.
 *     - In a pass, an item takes one step if its slot is in the first group of its probe order and not before its home.
 *     - Any other item takes one or two binary searches among the items that are left, for each group up to its own.
 *       For 64 homes the call remembers the groups that it has searched, and does not search them again.
 *     For untrusted tables use odht_any_insert_order with scratch memory.
 *
 * odht_S_grow(bytes, bytes_len, out, out_len, *len)
 *     Writes a larger copy of the table to out, with the same load factor and room for twice the number of items (at
 *     least one). Call it if an insert returns FULL, and insert into the copy ("Grow on FULL"). For a valid table one
 *     growth is enough. With an out_len of 0 it only computes *len. bytes and out must not overlap.
 *     OK: the first *len bytes of out are the copy, and the rest of out is unchanged. TOO_SMALL: out_len is below *len,
 *     the length of the copy, and out is unchanged. An error, @HEADER@. LOAD_FACTOR_TOO_SMALL: the load factor in the
 *     header is below 1 percent, so the bytes are not valid. CAPACITY: no slot count is large enough, or the length
 *     does not fit size_t.
 *     If the table is at its maximum, the copy has the same bytes as a table that grows by itself (docs/FORMAT.md,
 *     "Growth"). If the table is below its maximum, *len may be bytes_len or less.
 *     Check untrusted bytes first. If odht_S_check rejects them, *len depends on the header's item count, however large
 *     that is. Inserts into the copy may then return FULL again and again.
 *     Cost: it reads each slot once, hashes each key once, and compares no keys. It allocates nothing.
 *
 * odht_S_build(keys, keys_len, values, values_len, percent, out, out_len, *len)
 *     Makes a table for keys_len items in out, and inserts the pairs in order. Of equal keys the last value counts.
 *     OK: the first *len bytes of out are the table. TOO_SMALL: out_len is below *len, the length of the table.
 *     CAPACITY. BAD_PERCENT. BAD_LENGTHS: keys_len is not values_len. Only OK writes to out.
 *     Cost: it hashes and inserts each pair once. It allocates nothing.
 *
 * odht_S_build_growing(keys, keys_len, values, values_len, out, out_len, *len)
 *     Makes a table as if the number of pairs were unknown, and copies it to out. The table starts with 16 slots at 87
 *     percent. It grows when it is full and a key is new. The order of the slots can differ from that of odht_S_build.
 *     OK, TOO_SMALL and BAD_LENGTHS as for odht_S_build. MEMORY: an allocation for the growing table failed, or no
 *     table is large enough.
 *
 * odht_S_open_view(bytes, bytes_len, *view)
 *     Opens bytes as odht_S_open does, for many lookups. "Opened tables" above lists what a view needs.
 *     OK: *view is the view of the bytes. An error, @OPENING@.
 *
 * odht_S_view_get(view, key, *value)
 *     Works like odht_S_get, in an opened table. Returns OK or ABSENT.
 *
 * odht_S_view_get_all(view, keys, keys_len, values, values_len, found, found_len)
 *     Works like odht_S_get_all, in an opened table. Returns OK or BAD_LENGTHS.
 *
 * odht_S_view_len(view)
 *     Returns the number of items in the header of an opened table. It is the only call of a shape that returns no
 *     status.
 *
 * A set stores keys without values. Instead of get and get_all there are contains and contains_all, also for views. The
 * other calls take no values. In the set odht_u64_*, key is a uint64_t and keys is a const uint64_t *:
 *
 *     odht_u64_contains(bytes, bytes_len, key)
 *         OK: the key is present. ABSENT. An error, @HEADER@.
 *     odht_u64_contains_all(bytes, bytes_len, keys, keys_len, found, found_len)
 *         OK: found[i] is 1 if keys[i] is present, and 0 if it is absent. BAD_LENGTHS. An error, @HEADER@.
 *     odht_u64_insert(bytes, bytes_len, key)
 *     odht_u64_insert_all(bytes, bytes_len, keys, keys_len, *accepted)
 *     odht_u64_walk(bytes, bytes_len, *cursor, keys, keys_len, *count)
 *     odht_u64_build(keys, keys_len, percent, out, out_len, *len)
 *     odht_u64_build_growing(keys, keys_len, out, out_len, *len)
 *     odht_u64_view_contains(view, key)
 *         Works like odht_u64_contains, in an opened table. Returns OK or ABSENT.
 *     odht_u64_view_contains_all(view, keys, keys_len, found, found_len)
 *         Works like odht_u64_contains_all, in an opened table. Returns OK or BAD_LENGTHS.
 */

#if ODHT_TAKES_NULL
/* The pointer to pass for a slice. For length 0 it is not NULL, and nothing is read or written there. */
#define ODHT_SLICES(type) \
    static inline const type *odht_read_##type(const type *items, size_t len) \
    { \
        static const type none = 0; \
        return len == 0 ? &none : items; \
    } \
    static inline type *odht_write_##type(type *items, size_t len) \
    { \
        static type none = 0; \
        return len == 0 ? &none : items; \
    }
ODHT_SLICES(uint8_t)
ODHT_SLICES(uint32_t)
ODHT_SLICES(uint64_t)
ODHT_SLICES(size_t)
#undef ODHT_SLICES
#endif

/* Returns the version of the linked library, in the form of ODHT_VERSION. If the two differ, this header belongs to
   another version of the library. */
ODHT_NODISCARD extern uint32_t odht_version(void);

