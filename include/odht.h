/*
 * odht.h: hash tables that you use directly in the bytes of a file or a buffer, without parsing or copying them.
 *
 * Generated from lists/shapes.txt, lists/errors.txt and crates/odht_c/exports/header_*.h by make generate.
 *
 * A shape fixes the types of keys and values, and the hash function. This header declares calls for these shapes:
 *
 *   odht_u32_u32_*  from 32-bit numbers to 32-bit numbers, FxHashFn
 *   odht_u64_u32_*  from 64-bit numbers to 32-bit numbers, FxHashFn
 *   odht_u64_u64_*  from 64-bit numbers to 64-bit numbers, FxHashFn
 *   odht_u64_*      of 64-bit numbers, a set, FxHashFn
 *   odht_b8_u32_*   from hashes of 8 bytes to 32-bit numbers, UnHashFn
 *   odht_b8_u64_*   from hashes of 8 bytes to 64-bit numbers, UnHashFn
 *   odht_b16_u32_*  from hashes of 16 bytes to 32-bit numbers, UnHashFn
 *   odht_b16_u64_*  from hashes of 16 bytes to 64-bit numbers, UnHashFn
 *   odht_b20_u64_*  from hashes of 20 bytes to 64-bit numbers, UnHashFn
 *   odht_b32_u64_*  from hashes of 32 bytes to 64-bit numbers, UnHashFn
 *   odht_b16_b16_*  from hashes of 16 bytes to hashes of 16 bytes, UnHashFn
 *   odht_b32_b32_*  from hashes of 32 bytes to hashes of 32 bytes, UnHashFn
 *   odht_b8_*       of hashes of 8 bytes, a set, UnHashFn
 *   odht_b16_*      of hashes of 16 bytes, a set, UnHashFn
 *   odht_b20_*      of hashes of 20 bytes, a set, UnHashFn
 *   odht_b32_*      of hashes of 32 bytes, a set, UnHashFn
 *
 * docs/FORMAT.md describes the bytes. Each shape S has these calls, here without the prefix odht_S_. "The calls" below
 * describes each one.
 *
 *   to make a table    bytes_needed, init          the length of a new table; an empty table
 *                      build, build_growing        a table from arrays of keys and values
 *   to open bytes      open, open_at               check header, length and ten slots
 *                      open_view                   the same, for many lookups
 *                      table_len                   the length of a table at the start of longer bytes
 *   to check bytes     check, check_at             check every byte
 *                      check_within, check_within_at   the same in bounded time, for untrusted bytes
 *   to look up         get, get_all                one key; many keys
 *                      view_get, view_get_all      the same in an opened view
 *                      for a set: contains, contains_all, view_contains, view_contains_all
 *   to insert          insert, insert_all          one pair; many pairs
 *                      grow                        a larger copy of the table: "Grow on FULL"
 *   to read all        walk                        the pairs, in the order of the slots
 *                      len, view_len               the number of items
 *                      sizes                       the slot count, the maximum and the load factor
 *                      insert_order                an order of inserts that makes the same bytes
 *
 * odht_any_* are the same calls for dynamic tables: you choose the lengths of keys and values at run time ("Dynamic
 * tables"). odht_any_layout_of reads these lengths from a table's header. odht_version and odht_status_name need no
 * table.
 *
 * Which hash function for which keys:
 *
 *   numbers that count up                                     FxHashFn, used by the shapes with number keys
 *   addresses and offsets                                     FxHashFn, after you shift out bits that are always zero
 *   hashes, evenly spread in their last four bytes            UnHashFn, used by the shapes with hash keys
 *   text, tuples, floats, big-endian numbers                  Xxh64HashFn: odht_any_* with ODHT_HASH_XXH64
 *   anything else, or if you do not know                      Xxh64HashFn
 *
 * Of a 64-bit number, FxHashFn uses only the low 32 bits. UnHashFn takes the last four bytes of a key as its hash.
 * Xxh64HashFn uses all bits. If many keys share few hashes, searches can take a hundred times as long, and
 * odht_*_check_within may reject the table. This happens under FxHashFn with text, and with multiples of 4096 that you
 * do not shift.
 *
 * A table is a range of bytes that you own: the contents of a file, a mapping, a part of either, or allocated memory.
 * It may begin at any address. There is nothing to close or to free. Numbers in it are stored in little-endian order.
 *
 * Rules for callers:
 *
 * - A pointer and the length after it are a slice. All of it must be readable, and writable unless the pointer is to
 *   const. bytes_len and out_len count bytes. All other lengths count items: keys, values, flags or slots. Items of N
 *   bytes follow each other in an array without gaps, and the length is still the number of items.
 * - A slice or out-parameter that a call writes must not overlap another slice or out-parameter of that call, nor its
 *   layout. Slices that are only read may overlap.
 * - While a call reads the bytes of a table, nothing may write them. While a call writes them, nothing else may read or
 *   write them. The library keeps nothing between calls, so any number of threads may read one table.
 * - Every call returns a uint32_t with a number of enum odht_status, except odht_*_view_len, odht_version and
 *   odht_status_name. In C++, cast it to the enum. Compilers warn if you ignore a status.
 * - If arrays that must have equal lengths do not, the call returns ODHT_BAD_LENGTHS and checks nothing else.
 * - The bytes of a table may begin at any address. All other pointers are aligned for their types, as C requires.
 *   size_t has 64 bits.
 * - With GCC and Clang for ELF, ODHT_TAKES_NULL is 1. Then you may pass NULL for a slice of length 0. You may also
 *   pass NULL for an out-parameter of a single number or value that you do not need: former, value, accepted, count,
 *   len, slot, and those of odht_*_sizes. Never pass NULL for a key of a shape, a view, a layout or cursor.
 * - With other compilers ODHT_TAKES_NULL is 0. Then never pass NULL, not even with length 0. The calls of a set that
 *   take keys do not exist there.
 *
 * The comments on results are true for valid bytes: bytes that these calls made, and others that odht_*_check accepts.
 * odht_*_check reads every byte. odht_*_open reads only ten slots, so it can accept bytes that are not valid.
 *
 * If damaged or forged bytes have one of the errors 1 to 7, a call returns it. Otherwise a call still reads and
 * writes only the slices and out-parameters that you pass, but its results may be wrong:
 *
 * - get and get_all may miss a key. They may also find a key in a slot that its control byte marks as free, and return
 *   the value stored there.
 * - len returns the item count in the header.
 * - An insert changes one value that is stored with an equal key, or adds one entry if the item count is below the
 *   maximum, or returns FULL. FULL has two conditions. First, a search slot by slot can miss the key. Second, the item
 *   count is at or above the maximum, or no slot is free: its control byte, and its mirror byte if any, above 127.
 * - grow writes bytes without the errors 1 to 7. They have the same item count and load factor; their pairs are
 *   unspecified.
 *
 * docs/FORMAT.md lists these limits under "Accepted but invalid bytes".
 *
 * Only odht_*_build_growing allocates memory. It uses malloc, and frees the memory before it returns. The libraries
 * of make lib need only the C library; those that cargo builds also need libgcc_s. This header needs C99 or later, or
 * C++11 or later.
 */
#ifndef ODHT_H
#define ODHT_H

/* Strict C89 and C94 have no inline functions. Dialects with extensions, such as gnu89, do. */
#if defined(__STRICT_ANSI__) && !defined(__cplusplus) \
    && (!defined(__STDC_VERSION__) || __STDC_VERSION__ < 199901L)
#error "odht.h needs C99 or later, or C++11 or later"
#else /* up to the end of the file: otherwise thousands of errors follow this one */

#include <stddef.h>
#include <stdint.h>

#if SIZE_MAX != 0xffffffffffffffff
#error "odht is built for 64 bits"
#endif

/* The version of this header. */
#define ODHT_VERSION_MAJOR 0
#define ODHT_VERSION_MINOR 4
#define ODHT_VERSION_PATCH 0
#define ODHT_VERSION_STRING "0.4.0"

/* The version as one number, for comparisons: 1.2.3 is 10203. */
#define ODHT_VERSION \
    (ODHT_VERSION_MAJOR * 10000 + ODHT_VERSION_MINOR * 100 + ODHT_VERSION_PATCH)

/* Marks a function whose result must not be ignored. */
#if defined(__cplusplus) && __cplusplus >= 201703L
#define ODHT_NODISCARD [[nodiscard]]
#elif defined(__STDC_VERSION__) && __STDC_VERSION__ >= 202311L
#define ODHT_NODISCARD [[nodiscard]]
#elif defined(__GNUC__)
#define ODHT_NODISCARD __attribute__((warn_unused_result))
#else
#define ODHT_NODISCARD
#endif

/*
 * How the calls below are declared. With GCC and Clang for ELF, each call is a small inline function around the symbol
 * of the library. Where you may pass NULL, it passes a pointer to a variable instead. In object files the symbol is
 * odht_NAME, and the inline function odht_inline_NAME.
 *
 * Other compilers call the symbols directly. So do users of dlsym, bindings for other languages, and tools that define
 * ODHT_PLAIN before they read this header. The symbols do not accept NULL.
 */
#if defined(__GNUC__) && defined(__ELF__) && !defined(ODHT_PLAIN)
#define ODHT_TAKES_NULL 1
#else
#define ODHT_TAKES_NULL 0
#endif

#ifdef __cplusplus
extern "C" {
#endif

/* A bound for odht_*_check_within, in groups of sixteen control bytes. Tables of keys whose hashes vary stay within it,
   up to 95 percent and 2^24 slots. */
#define ODHT_DEFAULT_GROUPS 128

/* The value of *slot after odht_*_open_at, odht_*_check_at and odht_*_check_within_at if there is no error, or if the
   first error is not in a slot. No slot has this number. */
#define ODHT_NO_SLOT SIZE_MAX

/* The result of a call. Error::Name is the name of the error in Rattle. The rest of the comment is its cause.
   docs/FORMAT.md, "Numbers for C", lists the same numbers. */
enum odht_status {
    ODHT_OK = 0,                          /* success */

    /* Errors of bytes that are not a table of this shape. Calls check for 1 to 7 in this order. They return the first
       error, and then nothing is changed. After these, odht_*_open and odht_*_check read slots 0 to 9 in order, and
       the first bad slot gives 8 or 9. The next comment describes the rest of odht_*_check. */
    ODHT_TOO_SHORT = 1,                   /* Error::TooShort: fewer than 32 bytes */
    ODHT_WRONG_TAG = 2,                   /* Error::WrongTag: the first four bytes are not ODHT */
    ODHT_WRONG_VERSION = 3,               /* Error::WrongVersion: the format version is not 2 */
    ODHT_WRONG_SIZE = 4,                  /* Error::WrongSizeOf: the header states other lengths of
                                             control bytes, keys, values or header */
    ODHT_SLOT_COUNT_NOT_POWER_OF_TWO = 5, /* Error::SlotCountNotPowerOfTwo */
    ODHT_SLOT_COUNT_TOO_SMALL = 6,        /* Error::SlotCountTooSmall: fewer than 16 slots */
    ODHT_WRONG_LENGTH = 7,                /* Error::WrongLength: not the length that the slot count needs */
    ODHT_NON_ZERO_EMPTY = 8,              /* Error::NonZeroEmpty: a free slot's entry is not zero */
    ODHT_CONTROL_MISMATCH = 9,            /* Error::ControlMismatch: a control byte is not its key's tag */

    /* Errors of odht_*_check, and of odht_*_insert_order, which begins with this check. After 1 to 9 the check looks
       at the load factor and the padding. Then it reads all slots in order, and the first bad slot gives 8, 12 or 9.
       Last it looks for 13 to 16. odht_*_grow also returns 10. */
    ODHT_LOAD_FACTOR_TOO_SMALL = 10,      /* Error::LoadFactorTooSmall: below 1 percent */
    ODHT_NON_ZERO_PADDING = 11,           /* Error::NonZeroPadding: bytes 30 and 31 are not zero */
    ODHT_BAD_FREE_CONTROL = 12,           /* Error::BadFreeControl: a free slot's control byte is not 255 */
    ODHT_MIRROR_MISMATCH = 13,            /* Error::MirrorMismatch: the last 16 bytes do not repeat the first
                                             control bytes */
    ODHT_WRONG_ITEM_COUNT = 14,           /* Error::WrongItemCount: the header's item count is not the number
                                             of occupied slots */
    ODHT_TOO_MANY_ITEMS = 15,             /* Error::TooManyItems: more items than the load factor allows */
    ODHT_UNREACHABLE = 16,                /* Error::Unreachable: a key comes after a free slot of its probe
                                             order, or is stored a second time */

    /* Errors of calls that make a table or insert. */
    ODHT_INIT_LENGTH = 17,                /* Error::InitLength: not the length that the table needs */
    ODHT_FULL = 18,                       /* Error::Full: the table is at its maximum, and the key is new */
    ODHT_MEMORY = 19,                     /* Error::Memory: malloc failed, or a growing table cannot be larger */
    ODHT_CAPACITY = 20,                   /* Error::Capacity: too many items for any table */

    /* The error of odht_*_check_within, after 1 to 15 and before 16. */
    ODHT_SEARCH_TOO_LONG = 21,            /* Error::SearchTooLong: a search may read more groups than the bound */

    /* Statuses that are not errors of the library in Rattle. */
    ODHT_ABSENT = 32,                     /* the key is not in the table */
    ODHT_REPLACED = 33,                   /* the key was present, and its value is replaced */
    ODHT_BAD_PERCENT = 34,                /* 0 percent, or more than 100 */
    ODHT_BAD_LENGTHS = 35,                /* lengths of arrays, keys or values that do not
                                             match each other or the items */
    ODHT_TOO_SMALL = 36,                  /* an output buffer is too short for the result */
    ODHT_UNMADE = 37,                     /* no list of inserts makes the table */
    ODHT_BAD_LAYOUT = 38                  /* no hash function has this number, or the keys are too short for it */
};

/* Returns a short text for a status, such as "wrong length". */
static inline const char *odht_status_name(uint32_t status)
{
    switch (status) {
    case ODHT_OK: return "ok";
    case ODHT_TOO_SHORT: return "too short";
    case ODHT_WRONG_TAG: return "wrong tag";
    case ODHT_WRONG_VERSION: return "wrong version";
    case ODHT_WRONG_SIZE: return "wrong size";
    case ODHT_SLOT_COUNT_NOT_POWER_OF_TWO: return "slot count not a power of two";
    case ODHT_SLOT_COUNT_TOO_SMALL: return "slot count too small";
    case ODHT_WRONG_LENGTH: return "wrong length";
    case ODHT_NON_ZERO_EMPTY: return "non-zero empty slot";
    case ODHT_CONTROL_MISMATCH: return "control mismatch";
    case ODHT_LOAD_FACTOR_TOO_SMALL: return "load factor too small";
    case ODHT_NON_ZERO_PADDING: return "non-zero padding";
    case ODHT_BAD_FREE_CONTROL: return "bad free control";
    case ODHT_MIRROR_MISMATCH: return "mirror mismatch";
    case ODHT_WRONG_ITEM_COUNT: return "wrong item count";
    case ODHT_TOO_MANY_ITEMS: return "too many items";
    case ODHT_UNREACHABLE: return "unreachable";
    case ODHT_INIT_LENGTH: return "wrong length to initialize";
    case ODHT_FULL: return "full";
    case ODHT_MEMORY: return "no memory";
    case ODHT_CAPACITY: return "capacity";
    case ODHT_SEARCH_TOO_LONG: return "search too long";
    case ODHT_ABSENT: return "absent";
    case ODHT_REPLACED: return "replaced";
    case ODHT_BAD_PERCENT: return "bad percent";
    case ODHT_BAD_LENGTHS: return "bad lengths";
    case ODHT_TOO_SMALL: return "too small";
    case ODHT_UNMADE: return "unmade";
    case ODHT_BAD_LAYOUT: return "bad layout";
    default: return "unknown status";
    }
}

/* ---- Opened tables ----
 *
 * A view is a table that you open once, for many lookups. Other calls check the header and the length each time.
 * odht_*_view_get, odht_*_view_get_all and odht_*_view_len do not check the header, and return none of the errors
 * 1 to 16.
 *
 * A view holds the pointer and the length of the bytes, and you may read both. It copies nothing, and there is
 * nothing to close. You may copy it, and any number of threads may look up in it. Initialize a variable like this:
 *
 *     odht_view view = ODHT_NO_VIEW;
 *
 * The library does not check a view. When you pass one to a lookup, all of these must be true:
 *
 * - odht_*_open_view of the same shape has written the view and returned ODHT_OK. For odht_any_* the lengths of keys
 *   and values must be the same. You may also set the members yourself, to bytes for which odht_*_open or
 *   odht_*_check has returned ODHT_OK.
 * - The bytes are still at the same address.
 * - Since then nothing has written the header of these bytes, except odht_*_insert, odht_*_insert_all and odht_*_init
 *   of the same shape, called with exactly these bytes.
 *
 * Otherwise a lookup has undefined behaviour, as with any wrong pointer in C.
 *
 * What a write to the bytes does to a view:
 *
 * - After odht_*_insert, odht_*_insert_all and odht_*_init, whatever they return, you can still use the view. It finds
 *   what they inserted.
 * - After odht_*_build, odht_*_build_growing or odht_*_grow into these bytes, you must not use it. The same is true if
 *   another program writes the mapped file.
 * - After any other write to slots only, you can use it, but results are as for bytes that are not valid.
 *
 * odht_*_open_view writes its view and does not read it. Still, if ODHT_TAKES_NULL is 0, you must initialize the view
 * first: with ODHT_NO_VIEW, or with a view whose bytes are still there.
 */
typedef struct odht_view {
    const uint8_t *bytes;
    size_t len;
} odht_view;

/* A view of no bytes. Do not look up in it. */
#ifdef __cplusplus
#define ODHT_NO_VIEW { reinterpret_cast<const uint8_t *>(""), 0 }
#else
#define ODHT_NO_VIEW { (const uint8_t *)"", 0 }
#endif

/* ---- Grow on FULL ----
 *
 * No call moves a table. If an insert returns FULL, write a larger copy of the table to other memory, insert there,
 * and go on with the copy. For a table in memory from malloc:
 *
 *     static uint32_t insert_and_grow(uint8_t **bytes, size_t *len, uint64_t key, uint32_t value, uint32_t *former)
 *     {
 *         uint32_t status = odht_u64_u32_insert(*bytes, *len, key, value, former);
 *         size_t grown_len = 0;
 *         uint8_t none = 0, *grown;
 *         if (status != ODHT_FULL)
 *             return status;
 *         status = odht_u64_u32_grow(*bytes, *len, &none, 0, &grown_len);
 *         if (status != ODHT_TOO_SMALL)
 *             return status;
 *         grown = (uint8_t *)malloc(grown_len);
 *         if (grown == NULL)
 *             return ODHT_MEMORY;
 *         status = odht_u64_u32_grow(*bytes, *len, grown, grown_len, &grown_len);
 *         if (status == ODHT_OK)
 *             status = odht_u64_u32_insert(grown, grown_len, key, value, former);
 *         if (status != ODHT_OK && status != ODHT_REPLACED) {
 *             free(grown);
 *             return status;
 *         }
 *         free(*bytes);
 *         *bytes = grown;
 *         *len = grown_len;
 *         return status;
 *     }
 *
 * With a status other than OK and REPLACED the old table is unchanged. This function frees the old bytes when it grows
 * the table, which ends their views. In C++, use odht::table of odht.hpp, which does the same.
 */
/* ---- The calls ----
 *
 * S is the name of a shape, such as u64_u32. A number, as a key or value, is passed by value. A key or value of N bytes
 * is passed as a pointer to its bytes. *value and *former are a number or N bytes. A call writes an out-parameter only
 * if it returns a status whose text below names it.
 *
 * The prototypes of odht_u64_u32_*, as they are with ODHT_PLAIN defined:
 *
 *     uint32_t odht_u64_u32_bytes_needed(size_t max_item_count, uint8_t percent, size_t *len);
 *     uint32_t odht_u64_u32_init(uint8_t *bytes, size_t bytes_len, size_t max_item_count, uint8_t percent);
 *     uint32_t odht_u64_u32_open(const uint8_t *bytes, size_t bytes_len);
 *     uint32_t odht_u64_u32_check(const uint8_t *bytes, size_t bytes_len);
 *     uint32_t odht_u64_u32_check_within(const uint8_t *bytes, size_t bytes_len, size_t groups);
 *     uint32_t odht_u64_u32_open_at(const uint8_t *bytes, size_t bytes_len, size_t *slot);
 *     uint32_t odht_u64_u32_check_at(const uint8_t *bytes, size_t bytes_len, size_t *slot);
 *     uint32_t odht_u64_u32_check_within_at(const uint8_t *bytes, size_t bytes_len, size_t groups, size_t *slot);
 *     uint32_t odht_u64_u32_len(const uint8_t *bytes, size_t bytes_len, size_t *count);
 *     uint32_t odht_u64_u32_sizes(const uint8_t *bytes, size_t bytes_len, size_t *slots, size_t *max_item_count,
 *         uint8_t *percent);
 *     uint32_t odht_u64_u32_table_len(const uint8_t *bytes, size_t bytes_len, size_t *len);
 *     uint32_t odht_u64_u32_get(const uint8_t *bytes, size_t bytes_len, uint64_t key, uint32_t *value);
 *     uint32_t odht_u64_u32_get_all(const uint8_t *bytes, size_t bytes_len, const uint64_t *keys, size_t keys_len,
 *         uint32_t *values, size_t values_len, uint8_t *found, size_t found_len);
 *     uint32_t odht_u64_u32_insert(uint8_t *bytes, size_t bytes_len, uint64_t key, uint32_t value, uint32_t *former);
 *     uint32_t odht_u64_u32_insert_all(uint8_t *bytes, size_t bytes_len, const uint64_t *keys, size_t keys_len,
 *         const uint32_t *values, size_t values_len, size_t *accepted);
 *     uint32_t odht_u64_u32_walk(const uint8_t *bytes, size_t bytes_len, size_t *cursor, uint64_t *keys,
 *         size_t keys_len, uint32_t *values, size_t values_len, size_t *count);
 *     uint32_t odht_u64_u32_insert_order(const uint8_t *bytes, size_t bytes_len, size_t *slots, size_t slots_len);
 *     uint32_t odht_u64_u32_grow(const uint8_t *bytes, size_t bytes_len, uint8_t *out, size_t out_len, size_t *len);
 *     uint32_t odht_u64_u32_build(const uint64_t *keys, size_t keys_len, const uint32_t *values, size_t values_len,
 *         uint8_t percent, uint8_t *out, size_t out_len, size_t *len);
 *     uint32_t odht_u64_u32_build_growing(const uint64_t *keys, size_t keys_len, const uint32_t *values,
 *         size_t values_len, uint8_t *out, size_t out_len, size_t *len);
 *     uint32_t odht_u64_u32_open_view(const uint8_t *bytes, size_t bytes_len, odht_view *view);
 *     uint32_t odht_u64_u32_view_get(const odht_view *view, uint64_t key, uint32_t *value);
 *     uint32_t odht_u64_u32_view_get_all(const odht_view *view, const uint64_t *keys, size_t keys_len,
 *         uint32_t *values, size_t values_len, uint8_t *found, size_t found_len);
 *     size_t odht_u64_u32_view_len(const odht_view *view);
 *
 * Other shapes have other types of keys and values. The end of this comment lists what differs for a set.
 *
 * odht_S_bytes_needed(max_item_count, percent, *len)
 *     Computes the length of a table for max_item_count items. percent is the highest percentage of its slots that may
 *     be occupied, 1 to 100.
 *     OK: *len is the length in bytes. BAD_PERCENT. CAPACITY: no slot count is large enough, or the length does not
 *     fit size_t.
 *
 * odht_S_init(bytes, bytes_len, max_item_count, percent)
 *     Writes an empty table over the bytes. bytes_len must be the length that odht_S_bytes_needed returns for the same
 *     count and percentage.
 *     OK: the bytes are the empty table. BAD_PERCENT. CAPACITY. INIT_LENGTH: bytes_len is not that length. With
 *     all statuses except OK the bytes are unchanged.
 *     Cost: one pass over the bytes.
 *
 * odht_S_open(bytes, bytes_len)
 *     Checks the header, the length and the first ten slots, in constant time. This call is optional: each call below
 *     checks the header and the length itself, except lookups in a view.
 *     OK: the other calls accept the bytes. The slots after the first ten were not checked.
 *     An error, 1 to 9.
 *
 * odht_S_check(bytes, bytes_len)
 *     Checks every byte. If it accepts the bytes, all comments here are true for them.
 *     OK: the bytes are valid. An error, 1 to 16: the first in the order that enum odht_status describes.
 *     odht_S_check_at also returns its slot.
 *     Cost: one pass over the slots. For each occupied slot it reads the control bytes of the key's probe order up to
 *     that slot, sixteen at a time. It compares the key with each earlier key of that order that has the same tag. It
 *     allocates nothing.
 *     If the hashes of the keys vary, the check takes up to three times as long as one lookup of each key. At 87
 *     percent it takes up to 1.4 times as long. If many keys have one hash, by chance or by forgery, it compares up to
 *     every pair of keys: the time grows with the square of the number of slots. bench/README.md lists times. Use
 *     odht_S_check_within for untrusted bytes.
 *
 * odht_S_check_within(bytes, bytes_len, groups)
 *     Makes the check of odht_S_check in bounded time, for untrusted bytes. It also checks that the probe order from
 *     each slot has a free slot within the given number of groups of sixteen control bytes. So no search, for a present
 *     or an absent key, reads more groups. Tables of keys whose hashes vary stay within ODHT_DEFAULT_GROUPS. A bound of
 *     0 rejects every table.
 *     OK: the bytes are valid, and no search reads more groups. An error, 1 to 16, as for odht_S_check.
 *     SEARCH_TOO_LONG: from some slot, a search may read more groups. The searches for all keys in the table can still
 *     be within the bound. This is checked after 1 to 15 and before 16.
 *     Cost for s slots: it reads at most 2 * s * groups groups, and compares at most 16 * s * groups keys. It allocates
 *     nothing. With s / 16 groups or more it returns the status of odht_S_check (the contract does not state this).
 *
 * odht_S_open_at(bytes, bytes_len, *slot)
 *     Works like odht_S_open, and writes the slot of the error. Slots are numbered from 0.
 *     NON_ZERO_EMPTY, CONTROL_MISMATCH: *slot is the slot. OK, and all other errors: *slot is ODHT_NO_SLOT.
 *
 * odht_S_check_at(bytes, bytes_len, *slot)
 *     Works like odht_S_check, and writes the slot of the first error. Slots are numbered from 0.
 *     NON_ZERO_EMPTY, CONTROL_MISMATCH, BAD_FREE_CONTROL, UNREACHABLE: *slot is the slot. MIRROR_MISMATCH: *slot is the
 *     slot, 0 to 15, whose control byte the mirror does not repeat. OK, and all other errors: *slot is ODHT_NO_SLOT.
 *
 * odht_S_check_within_at(bytes, bytes_len, groups, *slot)
 *     Works like odht_S_check_within, and writes the slot of the first error, as odht_S_check_at does.
 *     SEARCH_TOO_LONG: *slot is the first slot from which a search may be too long.
 *
 * odht_S_len(bytes, bytes_len, *count)
 *     Reads the number of items from the header. It may be wrong unless odht_S_check has accepted the bytes, so compare
 *     it with bytes_len before you allocate: no table holds more items than bytes.
 *     OK: *count is the number. An error, 1 to 7. Constant time.
 *
 * odht_S_sizes(bytes, bytes_len, *slots, *max_item_count, *percent)
 *     Reads the slot count and the load factor from the header, and computes the maximum number of items from both.
 *     The load factor is in percent, rounded down. So it may be one less than the percentage that the table was made
 *     with.
 *     OK: all three are written. An error, 1 to 7. Constant time.
 *
 * odht_S_table_len(bytes, bytes_len, *len)
 *     Computes the length of the table at the start of longer bytes from its header. Use it to find a table inside a
 *     file, and then pass exactly *len bytes to the other calls. It reads no slots.
 *     OK: *len is the length in bytes, at most bytes_len. An error, 1 to 7. WRONG_LENGTH: bytes_len is below the
 *     length of the table. Constant time.
 *
 * odht_S_get(bytes, bytes_len, key, *value)
 *     Looks up a key.
 *     OK: the key is present, and *value is its value. ABSENT. An error, 1 to 7.
 *     Cost: if hashes vary, most searches read one group of sixteen control bytes. No search reads more than
 *     slots / 16 groups.
 *
 * odht_S_get_all(bytes, bytes_len, keys, keys_len, values, values_len, found, found_len)
 *     Looks up many keys, and checks the header and the length only once.
 *     OK: for a present key, found[i] is 1 and values[i] is its value. For an absent key, found[i] is 0 and values[i]
 *     is unchanged. BAD_LENGTHS: the three lengths are not equal. An error, 1 to 7.
 *
 * odht_S_insert(bytes, bytes_len, key, value, *former)
 *     Inserts a key with its value, or replaces the value of a present key.
 *     OK: the key was new. REPLACED: the key was present, and *former is the value that it had. FULL: the key is new,
 *     and the table is at its maximum. An error, 1 to 7. After FULL and the errors nothing is changed.
 *     Cost: it reads the same number of groups as odht_S_get.
 *
 * odht_S_insert_all(bytes, bytes_len, keys, keys_len, values, values_len, *accepted)
 *     Inserts keys[i] with values[i] for each i in order, as odht_S_insert does, and stops at the first FULL.
 *     OK: all pairs are inserted, and *accepted is keys_len. FULL: the first *accepted pairs are inserted, and the next
 *     key is new. BAD_LENGTHS: keys_len is not values_len. An error, 1 to 7. After BAD_LENGTHS and the errors nothing
 *     is changed.
 *
 * odht_S_walk(bytes, bytes_len, *cursor, keys, keys_len, values, values_len, *count)
 *     Writes the pairs of the table to two arrays in the order of the slots, one batch in each call. Set *cursor to 0
 *     first. Each call continues at slot *cursor and moves it. The arrays may have any length except 0:
 *
 *         do {
 *             status = odht_S_walk(bytes, len, &cursor, keys, 64, values, 64, &count);
 *             if (status != ODHT_OK && status != ODHT_TOO_SMALL)
 *                 break;
 *             use the first count pairs
 *         } while (status == ODHT_TOO_SMALL);
 *
 *     OK: these *count pairs are the last, and *cursor is the slot count. *count is 0 if *cursor was the slot count or
 *     above. TOO_SMALL: the arrays are full, and there are more pairs. BAD_LENGTHS: keys_len is not values_len. An
 *     error, 1 to 7. After BAD_LENGTHS and the errors the arrays, *cursor and *count are unchanged. A call writes
 *     only the first *count items of each array.
 *     A walk does not use the header's item count. For any bytes without the errors 1 to 7 it writes at most one pair
 *     for each slot. So all pairs together take less than bytes_len bytes.
 *     Cost: it reads the control bytes from the old *cursor to the new one, and the entries of the pairs.
 *
 * odht_S_insert_order(bytes, bytes_len, slots, slots_len)
 *     Finds an order of inserts that makes exactly these bytes, and writes it as a list of slots. To make the bytes,
 *     insert the pairs of these slots, in this order, into an empty table of the same slot count and load factor. For
 *     some valid tables there is no such order.
 *     OK: slots holds the occupied slots, each once, in such an order. Slots are numbered from 0. UNMADE: no list of
 *     inserts makes the table, with growths or without, and the content of slots is unspecified. An error of the whole
 *     check, 1 to 16. BAD_LENGTHS: the bytes are valid, and slots_len is not the number of items.
 *     Cost: the whole check, then passes over the items that are not in the order yet. Each pass ends with a sort of
 *     the items that are left. The call allocates nothing.
 *     - Without items that must follow an item of a later slot there is one pass. Each such item adds at most one.
 *     - In a pass, an item takes one step if its slot is in the first group of its probe order and not before its home.
 *     - Any other item takes one or two binary searches among the items that are left, for each group up to its own.
 *       For 64 homes the call remembers the groups that it has searched, and does not search them again.
 *     For untrusted tables use odht_any_insert_order with scratch memory.
 *
 * odht_S_grow(bytes, bytes_len, out, out_len, *len)
 *     Writes a larger copy of the table to out, with the same load factor and room for twice the number of items (at
 *     least one). Call it if an insert returns FULL, and insert into the copy ("Grow on FULL"). For a valid table one
 *     growth is enough. With an out_len of 0 it only computes *len. bytes and out must not overlap.
 *     OK: the first *len bytes of out are the copy, and the rest of out is unchanged. TOO_SMALL: out_len is below *len,
 *     the length of the copy, and out is unchanged. An error, 1 to 7. LOAD_FACTOR_TOO_SMALL: the load factor in the
 *     header is below 1 percent, so the bytes are not valid. CAPACITY: no slot count is large enough, or the length
 *     does not fit size_t.
 *     If the table is at its maximum, the copy has the same bytes as a table that grows by itself (docs/FORMAT.md,
 *     "Growth"). If the table is below its maximum, *len may be bytes_len or less.
 *     Check untrusted bytes first. If odht_S_check rejects them, *len depends on the header's item count, however large
 *     that is. Inserts into the copy may then return FULL again and again.
 *     Cost: it reads each slot once, hashes each key once, and compares no keys. It allocates nothing.
 *
 * odht_S_build(keys, keys_len, values, values_len, percent, out, out_len, *len)
 *     Makes a table for keys_len items in out, and inserts the pairs in order. Of equal keys the last value counts.
 *     OK: the first *len bytes of out are the table. TOO_SMALL: out_len is below *len, the length of the table.
 *     CAPACITY. BAD_PERCENT. BAD_LENGTHS: keys_len is not values_len. Only OK writes to out.
 *     Cost: it hashes and inserts each pair once. It allocates nothing.
 *
 * odht_S_build_growing(keys, keys_len, values, values_len, out, out_len, *len)
 *     Makes a table as if the number of pairs were unknown, and copies it to out. The table starts with 16 slots at 87
 *     percent. It grows when it is full and a key is new. The order of the slots can differ from that of odht_S_build.
 *     OK, TOO_SMALL and BAD_LENGTHS as for odht_S_build. MEMORY: an allocation for the growing table failed, or no
 *     table is large enough.
 *
 * odht_S_open_view(bytes, bytes_len, *view)
 *     Opens bytes as odht_S_open does, for many lookups. "Opened tables" above lists what a view needs.
 *     OK: *view is the view of the bytes. An error, 1 to 9.
 *
 * odht_S_view_get(view, key, *value)
 *     Works like odht_S_get, in an opened table. Returns OK or ABSENT.
 *
 * odht_S_view_get_all(view, keys, keys_len, values, values_len, found, found_len)
 *     Works like odht_S_get_all, in an opened table. Returns OK or BAD_LENGTHS.
 *
 * odht_S_view_len(view)
 *     Returns the number of items in the header of an opened table. It is the only call of a shape that returns no
 *     status.
 *
 * A set stores keys without values. Instead of get and get_all there are contains and contains_all, also for views. The
 * other calls take no values. In the set odht_u64_*, key is a uint64_t and keys is a const uint64_t *:
 *
 *     odht_u64_contains(bytes, bytes_len, key)
 *         OK: the key is present. ABSENT. An error, 1 to 7.
 *     odht_u64_contains_all(bytes, bytes_len, keys, keys_len, found, found_len)
 *         OK: found[i] is 1 if keys[i] is present, and 0 if it is absent. BAD_LENGTHS. An error, 1 to 7.
 *     odht_u64_insert(bytes, bytes_len, key)
 *     odht_u64_insert_all(bytes, bytes_len, keys, keys_len, *accepted)
 *     odht_u64_walk(bytes, bytes_len, *cursor, keys, keys_len, *count)
 *     odht_u64_build(keys, keys_len, percent, out, out_len, *len)
 *     odht_u64_build_growing(keys, keys_len, out, out_len, *len)
 *     odht_u64_view_contains(view, key)
 *         Works like odht_u64_contains, in an opened table. Returns OK or ABSENT.
 *     odht_u64_view_contains_all(view, keys, keys_len, found, found_len)
 *         Works like odht_u64_contains_all, in an opened table. Returns OK or BAD_LENGTHS.
 */

#if ODHT_TAKES_NULL
/* The pointer to pass for a slice. For length 0 it is not NULL, and nothing is read or written there. */
#define ODHT_SLICES(type) \
    static inline const type *odht_read_##type(const type *items, size_t len) \
    { \
        static const type none = 0; \
        return len == 0 ? &none : items; \
    } \
    static inline type *odht_write_##type(type *items, size_t len) \
    { \
        static type none = 0; \
        return len == 0 ? &none : items; \
    }
ODHT_SLICES(uint8_t)
ODHT_SLICES(uint32_t)
ODHT_SLICES(uint64_t)
ODHT_SLICES(size_t)
#undef ODHT_SLICES
#endif

/* Returns the version of the linked library, in the form of ODHT_VERSION. If the two differ, this header belongs to
   another version of the library. */
ODHT_NODISCARD extern uint32_t odht_version(void);

/* ---- How the calls are declared ----
 *
 * ODHT_DECLARE_MAP and ODHT_DECLARE_SET declare all calls of a shape S. The lines at the end of this file use them,
 * once for each shape. For each call they list the result, the name, the parameters and the body of its inline
 * function.
 */
#if ODHT_TAKES_NULL
/* Declares the symbol of the library, and defines the inline function around it. */
#define ODHT_CALL(result, name, parameters, body) \
    result odht_symbol_##name parameters __asm__("odht_" #name); \
    ODHT_NODISCARD static inline result odht_##name parameters __asm__("odht_inline_" #name); \
    static inline result odht_##name parameters \
    { \
        body \
    }

/* The same in two parts, for calls whose inline function has other parameters than the symbol. */
#define ODHT_SYMBOL(result, name, parameters) \
    result odht_symbol_##name parameters __asm__("odht_" #name);
#define ODHT_FUNCTION(result, name, parameters, body) \
    ODHT_NODISCARD static inline result odht_##name parameters __asm__("odht_inline_" #name); \
    static inline result odht_##name parameters \
    { \
        body \
    }
#else
#define ODHT_CALL(result, name, parameters, body) \
    ODHT_NODISCARD extern result odht_##name parameters;
#define ODHT_SYMBOL(result, name, parameters)
#define ODHT_FUNCTION(result, name, parameters, body)
#endif

/* For keys and values that are numbers of `bits` bits. In this order: the type of an array item, a parameter, an
   out-parameter (a pointer that may be NULL), and a variable for a result that the caller does not need. The last two
   are arrays, to read and to write, whose pointer may be NULL. */
#define ODHT_NUMBER_ITEM(bits) uint##bits##_t
#define ODHT_NUMBER_GIVEN(bits, name) uint##bits##_t name
#define ODHT_NUMBER_WANTED(bits, name) uint##bits##_t *name
#define ODHT_NUMBER_UNWANTED(bits) uint##bits##_t unwanted[1] = { 0 };
#define ODHT_NUMBER_READ(bits, items, len) odht_read_uint##bits##_t(items, len)
#define ODHT_NUMBER_WRITE(bits, items, len) odht_write_uint##bits##_t(items, len)

/* The same for keys and values of `count` bytes. */
#define ODHT_BYTES_ITEM(count) uint8_t
#define ODHT_BYTES_GIVEN(count, name) const uint8_t name[count]
#define ODHT_BYTES_WANTED(count, name) uint8_t name[count]
#define ODHT_BYTES_UNWANTED(count) uint8_t unwanted[count] = { 0 };
#define ODHT_BYTES_READ(count, items, len) odht_read_uint8_t(items, len)
#define ODHT_BYTES_WRITE(count, items, len) odht_write_uint8_t(items, len)

/* The calls of every shape, described above under "The calls". P is the name of the shape, followed by _. */
#define ODHT_TABLE_CALLS(P) \
    ODHT_CALL(uint32_t, P##bytes_needed, (size_t max_item_count, uint8_t percent, size_t *len), \
        size_t unwanted = 0; \
        return odht_symbol_##P##bytes_needed(max_item_count, percent, len ? len : &unwanted);) \
\
    ODHT_CALL(uint32_t, P##init, \
        (uint8_t *bytes, size_t bytes_len, size_t max_item_count, uint8_t percent), \
        return odht_symbol_##P##init( \
            odht_write_uint8_t(bytes, bytes_len), bytes_len, max_item_count, percent);) \
\
    ODHT_CALL(uint32_t, P##open, (const uint8_t *bytes, size_t bytes_len), \
        return odht_symbol_##P##open(odht_read_uint8_t(bytes, bytes_len), bytes_len);) \
\
    ODHT_CALL(uint32_t, P##check, (const uint8_t *bytes, size_t bytes_len), \
        return odht_symbol_##P##check(odht_read_uint8_t(bytes, bytes_len), bytes_len);) \
\
    ODHT_CALL(uint32_t, P##check_within, (const uint8_t *bytes, size_t bytes_len, size_t groups), \
        return odht_symbol_##P##check_within( \
            odht_read_uint8_t(bytes, bytes_len), bytes_len, groups);) \
\
    ODHT_CALL(uint32_t, P##open_at, (const uint8_t *bytes, size_t bytes_len, size_t *slot), \
        size_t unwanted = 0; \
        return odht_symbol_##P##open_at( \
            odht_read_uint8_t(bytes, bytes_len), bytes_len, slot ? slot : &unwanted);) \
    ODHT_CALL(uint32_t, P##check_at, (const uint8_t *bytes, size_t bytes_len, size_t *slot), \
        size_t unwanted = 0; \
        return odht_symbol_##P##check_at( \
            odht_read_uint8_t(bytes, bytes_len), bytes_len, slot ? slot : &unwanted);) \
    ODHT_CALL(uint32_t, P##check_within_at, \
        (const uint8_t *bytes, size_t bytes_len, size_t groups, size_t *slot), \
        size_t unwanted = 0; \
        return odht_symbol_##P##check_within_at( \
            odht_read_uint8_t(bytes, bytes_len), bytes_len, groups, slot ? slot : &unwanted);) \
\
    ODHT_CALL(uint32_t, P##len, (const uint8_t *bytes, size_t bytes_len, size_t *count), \
        size_t unwanted = 0; \
        return odht_symbol_##P##len( \
            odht_read_uint8_t(bytes, bytes_len), bytes_len, count ? count : &unwanted);) \
\
    ODHT_CALL(uint32_t, P##sizes, \
        (const uint8_t *bytes, size_t bytes_len, size_t *slots, size_t *max_item_count, \
            uint8_t *percent), \
        size_t unwanted_slots = 0; \
        size_t unwanted_count = 0; \
        uint8_t unwanted_percent = 0; \
        return odht_symbol_##P##sizes( \
            odht_read_uint8_t(bytes, bytes_len), bytes_len, slots ? slots : &unwanted_slots, \
            max_item_count ? max_item_count : &unwanted_count, \
            percent ? percent : &unwanted_percent);) \
\
    ODHT_CALL(uint32_t, P##table_len, (const uint8_t *bytes, size_t bytes_len, size_t *len), \
        size_t unwanted = 0; \
        return odht_symbol_##P##table_len( \
            odht_read_uint8_t(bytes, bytes_len), bytes_len, len ? len : &unwanted);) \
\
    ODHT_CALL(uint32_t, P##insert_order, \
        (const uint8_t *bytes, size_t bytes_len, size_t *slots, size_t slots_len), \
        return odht_symbol_##P##insert_order( \
            odht_read_uint8_t(bytes, bytes_len), bytes_len, odht_write_size_t(slots, slots_len), \
            slots_len);) \
\
    ODHT_CALL(uint32_t, P##grow, \
        (const uint8_t *bytes, size_t bytes_len, uint8_t *out, size_t out_len, size_t *len), \
        size_t unwanted = 0; \
        return odht_symbol_##P##grow( \
            odht_read_uint8_t(bytes, bytes_len), bytes_len, odht_write_uint8_t(out, out_len), \
            out_len, len ? len : &unwanted);) \
\
    ODHT_CALL(uint32_t, P##open_view, (const uint8_t *bytes, size_t bytes_len, odht_view *view), \
        odht_view opened = ODHT_NO_VIEW; \
        uint32_t status = odht_symbol_##P##open_view( \
            odht_read_uint8_t(bytes, bytes_len), bytes_len, &opened); \
        if (status == ODHT_OK) \
            *view = opened; \
        return status;) \
\
    ODHT_CALL(size_t, P##view_len, (const odht_view *view), \
        return odht_symbol_##P##view_len(view);)

/* The calls of a shape with values: K and V are ODHT_NUMBER or ODHT_BYTES, k and v the numbers of bits or bytes. */
#define ODHT_DECLARE_MAP(S, K, k, V, v) \
    ODHT_TABLE_CALLS(S##_) \
\
    ODHT_CALL(uint32_t, S##_get, \
        (const uint8_t *bytes, size_t bytes_len, K##_GIVEN(k, key), V##_WANTED(v, value)), \
        V##_UNWANTED(v) \
        return odht_symbol_##S##_get( \
            odht_read_uint8_t(bytes, bytes_len), bytes_len, key, value ? value : unwanted);) \
\
    ODHT_CALL(uint32_t, S##_get_all, \
        (const uint8_t *bytes, size_t bytes_len, const K##_ITEM(k) *keys, size_t keys_len, \
            V##_ITEM(v) *values, size_t values_len, uint8_t *found, size_t found_len), \
        return odht_symbol_##S##_get_all( \
            odht_read_uint8_t(bytes, bytes_len), bytes_len, K##_READ(k, keys, keys_len), keys_len, \
            V##_WRITE(v, values, values_len), values_len, \
            odht_write_uint8_t(found, found_len), found_len);) \
\
    ODHT_CALL(uint32_t, S##_insert, \
        (uint8_t *bytes, size_t bytes_len, K##_GIVEN(k, key), V##_GIVEN(v, value), \
            V##_WANTED(v, former)), \
        V##_UNWANTED(v) \
        return odht_symbol_##S##_insert( \
            odht_write_uint8_t(bytes, bytes_len), bytes_len, key, value, \
            former ? former : unwanted);) \
\
    ODHT_CALL(uint32_t, S##_insert_all, \
        (uint8_t *bytes, size_t bytes_len, const K##_ITEM(k) *keys, size_t keys_len, \
            const V##_ITEM(v) *values, size_t values_len, size_t *accepted), \
        size_t unwanted = 0; \
        return odht_symbol_##S##_insert_all( \
            odht_write_uint8_t(bytes, bytes_len), bytes_len, K##_READ(k, keys, keys_len), \
            keys_len, V##_READ(v, values, values_len), values_len, \
            accepted ? accepted : &unwanted);) \
\
    ODHT_CALL(uint32_t, S##_walk, \
        (const uint8_t *bytes, size_t bytes_len, size_t *cursor, K##_ITEM(k) *keys, \
            size_t keys_len, V##_ITEM(v) *values, size_t values_len, size_t *count), \
        size_t unwanted = 0; \
        return odht_symbol_##S##_walk( \
            odht_read_uint8_t(bytes, bytes_len), bytes_len, cursor, \
            K##_WRITE(k, keys, keys_len), keys_len, V##_WRITE(v, values, values_len), values_len, \
            count ? count : &unwanted);) \
\
    ODHT_CALL(uint32_t, S##_view_get, \
        (const odht_view *view, K##_GIVEN(k, key), V##_WANTED(v, value)), \
        V##_UNWANTED(v) \
        return odht_symbol_##S##_view_get(view, key, value ? value : unwanted);) \
\
    ODHT_CALL(uint32_t, S##_view_get_all, \
        (const odht_view *view, const K##_ITEM(k) *keys, size_t keys_len, V##_ITEM(v) *values, \
            size_t values_len, uint8_t *found, size_t found_len), \
        return odht_symbol_##S##_view_get_all( \
            view, K##_READ(k, keys, keys_len), keys_len, V##_WRITE(v, values, values_len), \
            values_len, odht_write_uint8_t(found, found_len), found_len);) \
\
    ODHT_CALL(uint32_t, S##_build, \
        (const K##_ITEM(k) *keys, size_t keys_len, const V##_ITEM(v) *values, size_t values_len, \
            uint8_t percent, uint8_t *out, size_t out_len, size_t *len), \
        size_t unwanted = 0; \
        return odht_symbol_##S##_build( \
            K##_READ(k, keys, keys_len), keys_len, V##_READ(v, values, values_len), values_len, \
            percent, odht_write_uint8_t(out, out_len), out_len, len ? len : &unwanted);) \
\
    ODHT_CALL(uint32_t, S##_build_growing, \
        (const K##_ITEM(k) *keys, size_t keys_len, const V##_ITEM(v) *values, size_t values_len, \
            uint8_t *out, size_t out_len, size_t *len), \
        size_t unwanted = 0; \
        return odht_symbol_##S##_build_growing( \
            K##_READ(k, keys, keys_len), keys_len, V##_READ(v, values, values_len), values_len, \
            odht_write_uint8_t(out, out_len), out_len, len ? len : &unwanted);)

/* The calls of a set: K is ODHT_NUMBER or ODHT_BYTES, k the number of bits or bytes of a key. The calls that take keys
   are inline functions around the symbols, which are those of a map whose values have no bytes. If ODHT_TAKES_NULL is 0
   these calls do not exist. */
#define ODHT_DECLARE_SET(S, K, k) \
    ODHT_TABLE_CALLS(S##_) \
\
    ODHT_SYMBOL(uint32_t, S##_get, \
        (const uint8_t *bytes, size_t bytes_len, K##_GIVEN(k, key), void *value)) \
    ODHT_SYMBOL(uint32_t, S##_get_all, \
        (const uint8_t *bytes, size_t bytes_len, const K##_ITEM(k) *keys, size_t keys_len, \
            void *values, size_t values_len, uint8_t *found, size_t found_len)) \
    ODHT_SYMBOL(uint32_t, S##_insert, \
        (uint8_t *bytes, size_t bytes_len, K##_GIVEN(k, key), void *former)) \
    ODHT_SYMBOL(uint32_t, S##_insert_all, \
        (uint8_t *bytes, size_t bytes_len, const K##_ITEM(k) *keys, size_t keys_len, \
            const void *values, size_t values_len, size_t *accepted)) \
    ODHT_SYMBOL(uint32_t, S##_walk, \
        (const uint8_t *bytes, size_t bytes_len, size_t *cursor, K##_ITEM(k) *keys, \
            size_t keys_len, void *values, size_t values_len, size_t *count)) \
    ODHT_SYMBOL(uint32_t, S##_view_get, (const odht_view *view, K##_GIVEN(k, key), void *value)) \
    ODHT_SYMBOL(uint32_t, S##_view_get_all, \
        (const odht_view *view, const K##_ITEM(k) *keys, size_t keys_len, void *values, \
            size_t values_len, uint8_t *found, size_t found_len)) \
    ODHT_SYMBOL(uint32_t, S##_build, \
        (const K##_ITEM(k) *keys, size_t keys_len, const void *values, size_t values_len, \
            uint8_t percent, uint8_t *out, size_t out_len, size_t *len)) \
    ODHT_SYMBOL(uint32_t, S##_build_growing, \
        (const K##_ITEM(k) *keys, size_t keys_len, const void *values, size_t values_len, \
            uint8_t *out, size_t out_len, size_t *len)) \
\
    ODHT_FUNCTION(uint32_t, S##_contains, \
        (const uint8_t *bytes, size_t bytes_len, K##_GIVEN(k, key)), \
        uint8_t nothing = 0; \
        return odht_symbol_##S##_get( \
            odht_read_uint8_t(bytes, bytes_len), bytes_len, key, &nothing);) \
\
    ODHT_FUNCTION(uint32_t, S##_contains_all, \
        (const uint8_t *bytes, size_t bytes_len, const K##_ITEM(k) *keys, size_t keys_len, \
            uint8_t *found, size_t found_len), \
        uint8_t nothing = 0; \
        return odht_symbol_##S##_get_all( \
            odht_read_uint8_t(bytes, bytes_len), bytes_len, K##_READ(k, keys, keys_len), keys_len, \
            &nothing, keys_len, odht_write_uint8_t(found, found_len), found_len);) \
\
    ODHT_FUNCTION(uint32_t, S##_insert, (uint8_t *bytes, size_t bytes_len, K##_GIVEN(k, key)), \
        uint8_t nothing = 0; \
        return odht_symbol_##S##_insert( \
            odht_write_uint8_t(bytes, bytes_len), bytes_len, key, &nothing);) \
\
    ODHT_FUNCTION(uint32_t, S##_insert_all, \
        (uint8_t *bytes, size_t bytes_len, const K##_ITEM(k) *keys, size_t keys_len, \
            size_t *accepted), \
        const uint8_t nothing = 0; \
        size_t unwanted = 0; \
        return odht_symbol_##S##_insert_all( \
            odht_write_uint8_t(bytes, bytes_len), bytes_len, K##_READ(k, keys, keys_len), \
            keys_len, &nothing, keys_len, accepted ? accepted : &unwanted);) \
\
    ODHT_FUNCTION(uint32_t, S##_walk, \
        (const uint8_t *bytes, size_t bytes_len, size_t *cursor, K##_ITEM(k) *keys, \
            size_t keys_len, size_t *count), \
        uint8_t nothing = 0; \
        size_t unwanted = 0; \
        return odht_symbol_##S##_walk( \
            odht_read_uint8_t(bytes, bytes_len), bytes_len, cursor, \
            K##_WRITE(k, keys, keys_len), keys_len, &nothing, keys_len, \
            count ? count : &unwanted);) \
\
    ODHT_FUNCTION(uint32_t, S##_view_contains, (const odht_view *view, K##_GIVEN(k, key)), \
        uint8_t nothing = 0; \
        return odht_symbol_##S##_view_get(view, key, &nothing);) \
\
    ODHT_FUNCTION(uint32_t, S##_view_contains_all, \
        (const odht_view *view, const K##_ITEM(k) *keys, size_t keys_len, uint8_t *found, \
            size_t found_len), \
        uint8_t nothing = 0; \
        return odht_symbol_##S##_view_get_all( \
            view, K##_READ(k, keys, keys_len), keys_len, &nothing, keys_len, \
            odht_write_uint8_t(found, found_len), found_len);) \
\
    ODHT_FUNCTION(uint32_t, S##_build, \
        (const K##_ITEM(k) *keys, size_t keys_len, uint8_t percent, uint8_t *out, size_t out_len, \
            size_t *len), \
        const uint8_t nothing = 0; \
        size_t unwanted = 0; \
        return odht_symbol_##S##_build( \
            K##_READ(k, keys, keys_len), keys_len, &nothing, keys_len, percent, \
            odht_write_uint8_t(out, out_len), out_len, len ? len : &unwanted);) \
\
    ODHT_FUNCTION(uint32_t, S##_build_growing, \
        (const K##_ITEM(k) *keys, size_t keys_len, uint8_t *out, size_t out_len, size_t *len), \
        const uint8_t nothing = 0; \
        size_t unwanted = 0; \
        return odht_symbol_##S##_build_growing( \
            K##_READ(k, keys, keys_len), keys_len, &nothing, keys_len, \
            odht_write_uint8_t(out, out_len), out_len, len ? len : &unwanted);)

/* ---- Dynamic tables ----
 *
 * odht_any_* are for tables whose lengths of keys and values you choose at run time. You pass these lengths, and the
 * hash function, as a layout. Each key and value is a pointer to bytes, with a length.
 *
 * The comment on odht_S_NAME above is also the comment on odht_any_NAME. With the lengths and the hash function of a
 * shape, these calls return and write the same as the calls of the shape. A view from one can be used by the other if
 * the lengths are the same. For many lookups the calls of a shape are faster.
 *
 * All lengths of keys and values are in bytes here. This includes the lengths of arrays, in which items follow each
 * other without gaps. A layout is never NULL. In a set, values have no bytes: pass any pointer and 0 for them, or NULL
 * if ODHT_TAKES_NULL is 1.
 *
 * Two statuses come before all others, and with both nothing is written. odht_any_layout_of and odht_any_view_len
 * take no layout and do not return them.
 *
 * - BAD_LAYOUT: no hash function has the number in the layout, or the keys are shorter than it needs. ODHT_HASH_UN
 *   needs four bytes.
 * - BAD_LENGTHS: the length of a key or a value is not the one in the layout. For arrays: keys_len is not count times
 *   the length of a key, values_len is not count times the length of a value, or found_len is not count. odht_any_walk
 *   compares with room instead of count.
 */
typedef struct odht_layout {
    uint8_t key_len;   /* of each key, in bytes */
    uint8_t value_len; /* of each value, in bytes; 0 in a set */
    uint8_t hash;      /* ODHT_HASH_FX, ODHT_HASH_UN or ODHT_HASH_XXH64 */
} odht_layout;

/* The hash functions: FxHasher of rustc-hash; the last four bytes of a key; the low 32 bits of XXH64 with seed 0.
   "Which hash function for which keys" above helps to choose. A table does not store which one it uses. */
#define ODHT_HASH_FX 0
#define ODHT_HASH_UN 1
#define ODHT_HASH_XXH64 2

/* OK: *len is the length in bytes of a table for max_item_count items. BAD_PERCENT, CAPACITY: *len is unchanged. */
ODHT_CALL(uint32_t, any_bytes_needed,
    (const odht_layout *layout, size_t max_item_count, uint8_t percent, size_t *len),
    size_t unwanted = 0;
    return odht_symbol_any_bytes_needed(layout, max_item_count, percent, len ? len : &unwanted);)

/* OK: the bytes are an empty table. BAD_PERCENT, CAPACITY, INIT_LENGTH: the bytes are unchanged. */
ODHT_CALL(uint32_t, any_init,
    (const odht_layout *layout, uint8_t *bytes, size_t bytes_len, size_t max_item_count, uint8_t percent),
    return odht_symbol_any_init(
        layout, odht_write_uint8_t(bytes, bytes_len), bytes_len, max_item_count, percent);)

/* OK: the other calls accept the bytes. An error, 1 to 9. Constant time. */
ODHT_CALL(uint32_t, any_open, (const odht_layout *layout, const uint8_t *bytes, size_t bytes_len),
    return odht_symbol_any_open(layout, odht_read_uint8_t(bytes, bytes_len), bytes_len);)

/* OK: all bytes are valid. An error, 1 to 16. One pass over all slots. */
ODHT_CALL(uint32_t, any_check, (const odht_layout *layout, const uint8_t *bytes, size_t bytes_len),
    return odht_symbol_any_check(layout, odht_read_uint8_t(bytes, bytes_len), bytes_len);)

/* OK: all bytes are valid, and no search reads more than groups groups. An error, 1 to 16, or SEARCH_TOO_LONG. */
ODHT_CALL(uint32_t, any_check_within,
    (const odht_layout *layout, const uint8_t *bytes, size_t bytes_len, size_t groups),
    return odht_symbol_any_check_within(
        layout, odht_read_uint8_t(bytes, bytes_len), bytes_len, groups);)

/* Work like open, check and check_within, and write the slot of the first error to *slot. If there is no error, or the
   first one is not in a slot, *slot is ODHT_NO_SLOT. BAD_LAYOUT: *slot is unchanged. */
ODHT_CALL(uint32_t, any_open_at,
    (const odht_layout *layout, const uint8_t *bytes, size_t bytes_len, size_t *slot),
    size_t unwanted = 0;
    return odht_symbol_any_open_at(
        layout, odht_read_uint8_t(bytes, bytes_len), bytes_len, slot ? slot : &unwanted);)
ODHT_CALL(uint32_t, any_check_at,
    (const odht_layout *layout, const uint8_t *bytes, size_t bytes_len, size_t *slot),
    size_t unwanted = 0;
    return odht_symbol_any_check_at(
        layout, odht_read_uint8_t(bytes, bytes_len), bytes_len, slot ? slot : &unwanted);)
ODHT_CALL(uint32_t, any_check_within_at,
    (const odht_layout *layout, const uint8_t *bytes, size_t bytes_len, size_t groups,
        size_t *slot),
    size_t unwanted = 0;
    return odht_symbol_any_check_within_at(
        layout, odht_read_uint8_t(bytes, bytes_len), bytes_len, groups, slot ? slot : &unwanted);)

/* OK: *count is the number of items in the header. An error, 1 to 7: *count is unchanged. */
ODHT_CALL(uint32_t, any_len,
    (const odht_layout *layout, const uint8_t *bytes, size_t bytes_len, size_t *count),
    size_t unwanted = 0;
    return odht_symbol_any_len(
        layout, odht_read_uint8_t(bytes, bytes_len), bytes_len, count ? count : &unwanted);)

/* OK: the header's slot count, the maximum number of items for it, and the load factor in percent, rounded down. An
   error, 1 to 7: all three are unchanged. */
ODHT_CALL(uint32_t, any_sizes,
    (const odht_layout *layout, const uint8_t *bytes, size_t bytes_len, size_t *slots,
        size_t *max_item_count, uint8_t *percent),
    size_t unwanted_slots = 0;
    size_t unwanted_count = 0;
    uint8_t unwanted_percent = 0;
    return odht_symbol_any_sizes(layout, odht_read_uint8_t(bytes, bytes_len), bytes_len,
        slots ? slots : &unwanted_slots, max_item_count ? max_item_count : &unwanted_count,
        percent ? percent : &unwanted_percent);)

/* OK: *len is the length of the table at the start of the bytes. An error, 1 to 7: *len is unchanged. */
ODHT_CALL(uint32_t, any_table_len,
    (const odht_layout *layout, const uint8_t *bytes, size_t bytes_len, size_t *len),
    size_t unwanted = 0;
    return odht_symbol_any_table_len(
        layout, odht_read_uint8_t(bytes, bytes_len), bytes_len, len ? len : &unwanted);)

/* Writes the lengths of keys and values in the header to the layout. OK: both lengths are written, and the hash
   function is unchanged, because a table does not store it. Other calls may still return BAD_LAYOUT for this layout. An
   error, 1 to 7: the layout is unchanged. */
ODHT_CALL(uint32_t, any_layout_of,
    (const uint8_t *bytes, size_t bytes_len, odht_layout *layout),
    return odht_symbol_any_layout_of(odht_read_uint8_t(bytes, bytes_len), bytes_len, layout);)

/* OK: the value is written. ABSENT, or an error, 1 to 7: it is unchanged. If ODHT_TAKES_NULL is 1, value may be NULL:
   then no value is written, and value_len is ignored. */
ODHT_CALL(uint32_t, any_get,
    (const odht_layout *layout, const uint8_t *bytes, size_t bytes_len, const uint8_t *key, size_t key_len,
        uint8_t *value, size_t value_len),
    if (!value) {
        uint8_t unwanted[255] = { 0 };
        return odht_symbol_any_get(layout, odht_read_uint8_t(bytes, bytes_len), bytes_len,
            odht_read_uint8_t(key, key_len), key_len, unwanted, layout->value_len);
    }
    return odht_symbol_any_get(layout, odht_read_uint8_t(bytes, bytes_len), bytes_len,
        odht_read_uint8_t(key, key_len), key_len, value, value_len);)

/* OK: the key is present. ABSENT, or an error, 1 to 7. */
ODHT_CALL(uint32_t, any_contains,
    (const odht_layout *layout, const uint8_t *bytes, size_t bytes_len, const uint8_t *key, size_t key_len),
    return odht_symbol_any_contains(layout, odht_read_uint8_t(bytes, bytes_len), bytes_len,
        odht_read_uint8_t(key, key_len), key_len);)

/* OK: for a present key i, found[i] is 1 and value i is its value. For an absent key i, found[i] is 0 and value i is
   unchanged. An error, 1 to 7: both arrays are unchanged. */
ODHT_CALL(uint32_t, any_get_all,
    (const odht_layout *layout, const uint8_t *bytes, size_t bytes_len, size_t count,
        const uint8_t *keys, size_t keys_len, uint8_t *values, size_t values_len, uint8_t *found,
        size_t found_len),
    return odht_symbol_any_get_all(layout, odht_read_uint8_t(bytes, bytes_len), bytes_len, count,
        odht_read_uint8_t(keys, keys_len), keys_len, odht_write_uint8_t(values, values_len),
        values_len, odht_write_uint8_t(found, found_len), found_len);)

/* Writes at most room pairs, from slot *cursor on. OK: these *count pairs are the last. TOO_SMALL: the arrays are
   full, there are more pairs, and the next call continues at *cursor. An error, 1 to 7: nothing is written. */
ODHT_CALL(uint32_t, any_walk,
    (const odht_layout *layout, const uint8_t *bytes, size_t bytes_len, size_t *cursor, size_t room,
        uint8_t *keys, size_t keys_len, uint8_t *values, size_t values_len, size_t *count),
    size_t unwanted = 0;
    return odht_symbol_any_walk(layout, odht_read_uint8_t(bytes, bytes_len), bytes_len, cursor,
        room, odht_write_uint8_t(keys, keys_len), keys_len, odht_write_uint8_t(values, values_len),
        values_len, count ? count : &unwanted);)

/* OK: slots holds the occupied slots, in an order of inserts that makes the table. UNMADE: no inserts make it, and the
   content of slots is unspecified. An error, 1 to 16: slots and scratch are unchanged. BAD_LENGTHS, checked last:
   slots_len is not the number of items, and both arrays are unchanged.

   scratch is memory for the search. Its content before the call does not matter, and after OK and UNMADE it is
   unspecified. With at least three numbers for each slot, the time is proportional to the slots, and to the groups that
   the longest search from each slot reads. odht_any_sizes returns the slot count. With less scratch memory, or none,
   the status is the same, but the search takes the time of odht_S_insert_order. For none, pass any pointer and 0, or
   NULL if ODHT_TAKES_NULL is 1.

   The call makes the whole check first. For untrusted bytes call odht_any_check_within before: it bounds the time of
   the check and of the search. */
ODHT_CALL(uint32_t, any_insert_order,
    (const odht_layout *layout, const uint8_t *bytes, size_t bytes_len, size_t *slots, size_t slots_len,
        size_t *scratch, size_t scratch_len),
    return odht_symbol_any_insert_order(layout, odht_read_uint8_t(bytes, bytes_len), bytes_len,
        odht_write_size_t(slots, slots_len), slots_len, odht_write_size_t(scratch, scratch_len),
        scratch_len);)

/* OK: the key was new. REPLACED: the former value is written. FULL, or an error, 1 to 7: nothing is changed. If
   ODHT_TAKES_NULL is 1, former may be NULL: then no former value is written, and former_len is ignored. */
ODHT_CALL(uint32_t, any_insert,
    (const odht_layout *layout, uint8_t *bytes, size_t bytes_len, const uint8_t *key, size_t key_len,
        const uint8_t *value, size_t value_len, uint8_t *former, size_t former_len),
    if (!former) {
        uint8_t unwanted[255] = { 0 };
        return odht_symbol_any_insert(layout, odht_write_uint8_t(bytes, bytes_len), bytes_len,
            odht_read_uint8_t(key, key_len), key_len, odht_read_uint8_t(value, value_len),
            value_len, unwanted, layout->value_len);
    }
    return odht_symbol_any_insert(layout, odht_write_uint8_t(bytes, bytes_len), bytes_len,
        odht_read_uint8_t(key, key_len), key_len, odht_read_uint8_t(value, value_len), value_len,
        former, former_len);)

/* OK or FULL: the first *accepted pairs are inserted. An error, 1 to 7: nothing is changed. */
ODHT_CALL(uint32_t, any_insert_all,
    (const odht_layout *layout, uint8_t *bytes, size_t bytes_len, size_t count, const uint8_t *keys,
        size_t keys_len, const uint8_t *values, size_t values_len, size_t *accepted),
    size_t unwanted = 0;
    return odht_symbol_any_insert_all(layout, odht_write_uint8_t(bytes, bytes_len), bytes_len,
        count, odht_read_uint8_t(keys, keys_len), keys_len, odht_read_uint8_t(values, values_len),
        values_len, accepted ? accepted : &unwanted);)

/* OK: the first *len bytes of out are the larger copy. TOO_SMALL: out_len is below *len, and out is unchanged. An
   error, 1 to 7, LOAD_FACTOR_TOO_SMALL, CAPACITY: out and *len are unchanged. */
ODHT_CALL(uint32_t, any_grow,
    (const odht_layout *layout, const uint8_t *bytes, size_t bytes_len, uint8_t *out, size_t out_len,
        size_t *len),
    size_t unwanted = 0;
    return odht_symbol_any_grow(layout, odht_read_uint8_t(bytes, bytes_len), bytes_len,
        odht_write_uint8_t(out, out_len), out_len, len ? len : &unwanted);)

/* OK: the first *len bytes of out are the table of these count pairs. TOO_SMALL: out_len is below *len, the length of
   the table. CAPACITY, BAD_PERCENT: *len is unchanged. Only OK writes to out. */
ODHT_CALL(uint32_t, any_build,
    (const odht_layout *layout, size_t count, const uint8_t *keys, size_t keys_len,
        const uint8_t *values, size_t values_len, uint8_t percent, uint8_t *out, size_t out_len,
        size_t *len),
    size_t unwanted = 0;
    return odht_symbol_any_build(layout, count, odht_read_uint8_t(keys, keys_len), keys_len,
        odht_read_uint8_t(values, values_len), values_len, percent, odht_write_uint8_t(out, out_len),
        out_len, len ? len : &unwanted);)

/* OK, TOO_SMALL and BAD_LENGTHS as for any_build. MEMORY: out and *len are unchanged. */
ODHT_CALL(uint32_t, any_build_growing,
    (const odht_layout *layout, size_t count, const uint8_t *keys, size_t keys_len,
        const uint8_t *values, size_t values_len, uint8_t *out, size_t out_len, size_t *len),
    size_t unwanted = 0;
    return odht_symbol_any_build_growing(layout, count, odht_read_uint8_t(keys, keys_len), keys_len,
        odht_read_uint8_t(values, values_len), values_len, odht_write_uint8_t(out, out_len),
        out_len, len ? len : &unwanted);)

/* OK: *view is the view of the bytes. An error, 1 to 9: *view is unchanged. "Opened tables" above lists
   what a view needs. Each lookup in it takes a layout with the same lengths. */
ODHT_CALL(uint32_t, any_open_view,
    (const odht_layout *layout, const uint8_t *bytes, size_t bytes_len, odht_view *view),
    odht_view opened = ODHT_NO_VIEW;
    uint32_t status = odht_symbol_any_open_view(
        layout, odht_read_uint8_t(bytes, bytes_len), bytes_len, &opened);
    if (status == ODHT_OK)
        *view = opened;
    return status;)

/* OK: the value is written. ABSENT: it is unchanged. As in any_get, value may be NULL if ODHT_TAKES_NULL is 1. */
ODHT_CALL(uint32_t, any_view_get,
    (const odht_layout *layout, const odht_view *view, const uint8_t *key, size_t key_len,
        uint8_t *value, size_t value_len),
    if (!value) {
        uint8_t unwanted[255] = { 0 };
        return odht_symbol_any_view_get(layout, view, odht_read_uint8_t(key, key_len), key_len,
            unwanted, layout->value_len);
    }
    return odht_symbol_any_view_get(
        layout, view, odht_read_uint8_t(key, key_len), key_len, value, value_len);)

/* OK: the key is present. ABSENT. */
ODHT_CALL(uint32_t, any_view_contains,
    (const odht_layout *layout, const odht_view *view, const uint8_t *key, size_t key_len),
    return odht_symbol_any_view_contains(
        layout, view, odht_read_uint8_t(key, key_len), key_len);)

/* OK: for a present key i, found[i] is 1 and value i is its value. For an absent key i, found[i] is 0 and value i is
   unchanged. */
ODHT_CALL(uint32_t, any_view_get_all,
    (const odht_layout *layout, const odht_view *view, size_t count, const uint8_t *keys,
        size_t keys_len, uint8_t *values, size_t values_len, uint8_t *found, size_t found_len),
    return odht_symbol_any_view_get_all(layout, view, count, odht_read_uint8_t(keys, keys_len),
        keys_len, odht_write_uint8_t(values, values_len), values_len,
        odht_write_uint8_t(found, found_len), found_len);)

/* Returns the number of items in the header. */
ODHT_CALL(size_t, any_view_len, (const odht_view *view),
    return odht_symbol_any_view_len(view);)

/* Each shape. */
ODHT_DECLARE_MAP(u32_u32, ODHT_NUMBER, 32, ODHT_NUMBER, 32)
ODHT_DECLARE_MAP(u64_u32, ODHT_NUMBER, 64, ODHT_NUMBER, 32)
ODHT_DECLARE_MAP(u64_u64, ODHT_NUMBER, 64, ODHT_NUMBER, 64)
ODHT_DECLARE_SET(u64, ODHT_NUMBER, 64)
ODHT_DECLARE_MAP(b8_u32, ODHT_BYTES, 8, ODHT_NUMBER, 32)
ODHT_DECLARE_MAP(b8_u64, ODHT_BYTES, 8, ODHT_NUMBER, 64)
ODHT_DECLARE_MAP(b16_u32, ODHT_BYTES, 16, ODHT_NUMBER, 32)
ODHT_DECLARE_MAP(b16_u64, ODHT_BYTES, 16, ODHT_NUMBER, 64)
ODHT_DECLARE_MAP(b20_u64, ODHT_BYTES, 20, ODHT_NUMBER, 64)
ODHT_DECLARE_MAP(b32_u64, ODHT_BYTES, 32, ODHT_NUMBER, 64)
ODHT_DECLARE_MAP(b16_b16, ODHT_BYTES, 16, ODHT_BYTES, 16)
ODHT_DECLARE_MAP(b32_b32, ODHT_BYTES, 32, ODHT_BYTES, 32)
ODHT_DECLARE_SET(b8, ODHT_BYTES, 8)
ODHT_DECLARE_SET(b16, ODHT_BYTES, 16)
ODHT_DECLARE_SET(b20, ODHT_BYTES, 20)
ODHT_DECLARE_SET(b32, ODHT_BYTES, 32)

#undef ODHT_CALL
#undef ODHT_SYMBOL
#undef ODHT_FUNCTION
#undef ODHT_NUMBER_ITEM
#undef ODHT_NUMBER_GIVEN
#undef ODHT_NUMBER_WANTED
#undef ODHT_NUMBER_UNWANTED
#undef ODHT_NUMBER_READ
#undef ODHT_NUMBER_WRITE
#undef ODHT_BYTES_ITEM
#undef ODHT_BYTES_GIVEN
#undef ODHT_BYTES_WANTED
#undef ODHT_BYTES_UNWANTED
#undef ODHT_BYTES_READ
#undef ODHT_BYTES_WRITE
#undef ODHT_TABLE_CALLS
#undef ODHT_DECLARE_MAP
#undef ODHT_DECLARE_SET

#ifdef __cplusplus
}
#endif

#endif /* C99 or later */
#endif
