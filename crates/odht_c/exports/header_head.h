/*
 * odht.h: hash tables that you use directly in the bytes of a file or a buffer, without parsing or copying them.
 *
 * Generated from lists/shapes.txt, lists/errors.txt and crates/odht_c/exports/header_*.h by make generate.
 *
 * A shape fixes the types of keys and values, and the hash function. This header declares calls for these shapes:
 *
@SHAPES@
 *
 * docs/FORMAT.md describes the bytes. Each shape S has these calls, here without the prefix odht_S_. "The calls" below
 * describes each one.
 *
 *   to make a table    bytes_needed, init          the length of a new table; an empty table
 *                      build, build_growing        a table from arrays of keys and values
 *   to open bytes      open, open_at               check header, length and ten slots
 *                      open_view                   the same, for many lookups
 *                      table_len                   the length of a table at the start of longer bytes
 *   to check bytes     check, check_at             check every byte
 *                      check_within, check_within_at   the same in bounded time, for untrusted bytes
 *   to look up         get, get_all                one key; many keys
 *                      view_get, view_get_all      the same in an opened view
 *                      for a set: contains, contains_all, view_contains, view_contains_all
 *   to insert          insert, insert_all          one pair; many pairs
 *                      grow                        a larger copy of the table: "Grow on FULL"
 *   to read all        walk                        the pairs, in the order of the slots
 *                      len, view_len               the number of items
 *                      sizes                       the slot count, the maximum and the load factor
 *                      insert_order                an order of inserts that makes the same bytes
 *
 * odht_any_* are the same calls for dynamic tables: you choose the lengths of keys and values at run time ("Dynamic
 * tables"). odht_any_layout_of reads these lengths from a table's header. odht_version and odht_status_name need no
 * table.
 *
 * Which hash function for which keys:
 *
 *   numbers that count up                                     FxHashFn, used by the shapes with number keys
 *   addresses and offsets                                     FxHashFn, after you shift out bits that are always zero
 *   hashes, evenly spread in their last four bytes            UnHashFn, used by the shapes with hash keys
 *   text, tuples, floats, big-endian numbers                  Xxh64HashFn: odht_any_* with ODHT_HASH_XXH64
 *   anything else, or if you do not know                      Xxh64HashFn
 *
 * Of a 64-bit number, FxHashFn uses only the low 32 bits. UnHashFn takes the last four bytes of a key as its hash.
 * Xxh64HashFn uses all bits. If many keys share few hashes, searches can take a hundred times as long, and
 * odht_*_check_within may reject the table. This happens under FxHashFn with text, and with multiples of 4096 that you
 * do not shift.
 *
 * A table is a range of bytes that you own: the contents of a file, a mapping, a part of either, or allocated memory.
 * It may begin at any address. There is nothing to close or to free. Numbers in it are stored in little-endian order.
 *
 * Rules for callers:
 *
 * - A pointer and the length after it are a slice. All of it must be readable, and writable unless the pointer is to
 *   const. bytes_len and out_len count bytes. All other lengths count items: keys, values, flags or slots. Items of N
 *   bytes follow each other in an array without gaps, and the length is still the number of items.
 * - A slice or out-parameter that a call writes must not overlap another slice or out-parameter of that call, nor its
 *   layout. Slices that are only read may overlap.
 * - While a call reads the bytes of a table, nothing may write them. While a call writes them, nothing else may read or
 *   write them. The library keeps nothing between calls, so any number of threads may read one table.
 * - Every call returns a uint32_t with a number of enum odht_status, except odht_*_view_len, odht_version and
 *   odht_status_name. In C++, cast it to the enum. Compilers warn if you ignore a status.
 * - If arrays that must have equal lengths do not, the call returns ODHT_BAD_LENGTHS and checks nothing else.
 * - The bytes of a table may begin at any address. All other pointers are aligned for their types, as C requires.
 *   size_t has 64 bits.
 * - With GCC and Clang for ELF, ODHT_TAKES_NULL is 1. Then you may pass NULL for a slice of length 0. You may also
 *   pass NULL for an out-parameter of a single number or value that you do not need: former, value, accepted, count,
 *   len, slot, and those of odht_*_sizes. Never pass NULL for a key of a shape, a view, a layout or cursor.
 * - With other compilers ODHT_TAKES_NULL is 0. Then never pass NULL, not even with length 0. The calls of a set that
 *   take keys do not exist there.
 *
 * The comments on results are true for valid bytes: bytes that these calls made, and others that odht_*_check accepts.
 * odht_*_check reads every byte. odht_*_open reads only ten slots, so it can accept bytes that are not valid.
 *
 * If damaged or forged bytes have one of the errors @HEADER@, a call returns it. Otherwise a call still reads and
 * writes only the slices and out-parameters that you pass, but its results may be wrong:
 *
 * - get and get_all may miss a key. They may also find a key in a slot that its control byte marks as free, and return
 *   the value stored there.
 * - len returns the item count in the header.
 * - An insert changes one value that is stored with an equal key, or adds one entry if the item count is below the
 *   maximum, or returns FULL. FULL has two conditions. First, a search slot by slot can miss the key. Second, the item
 *   count is at or above the maximum, or no slot is free: its control byte, and its mirror byte if any, above 127.
 * - grow writes bytes without the errors @HEADER@. They have the same item count and load factor; their pairs are
 *   unspecified.
 *
 * docs/FORMAT.md lists these limits under "Accepted but invalid bytes".
 *
 * Only odht_*_build_growing allocates memory. It uses malloc, and frees the memory before it returns. The libraries
 * of make lib need only the C library; those that cargo builds also need libgcc_s. This header needs C99 or later, or
 * C++11 or later.
 */
#ifndef ODHT_H
#define ODHT_H

/* Strict C89 and C94 have no inline functions. Dialects with extensions, such as gnu89, do. */
#if defined(__STRICT_ANSI__) && !defined(__cplusplus) \
    && (!defined(__STDC_VERSION__) || __STDC_VERSION__ < 199901L)
#error "odht.h needs C99 or later, or C++11 or later"
#else /* up to the end of the file: otherwise thousands of errors follow this one */

#include <stddef.h>
#include <stdint.h>

#if SIZE_MAX != 0xffffffffffffffff
#error "odht is built for 64 bits"
#endif

/* The version of this header. */
#define ODHT_VERSION_MAJOR @MAJOR@
#define ODHT_VERSION_MINOR @MINOR@
#define ODHT_VERSION_PATCH @PATCH@
#define ODHT_VERSION_STRING "@VERSION@"

/* The version as one number, for comparisons: 1.2.3 is 10203. */
#define ODHT_VERSION \
    (ODHT_VERSION_MAJOR * 10000 + ODHT_VERSION_MINOR * 100 + ODHT_VERSION_PATCH)

/* Marks a function whose result must not be ignored. */
#if defined(__cplusplus) && __cplusplus >= 201703L
#define ODHT_NODISCARD [[nodiscard]]
#elif defined(__STDC_VERSION__) && __STDC_VERSION__ >= 202311L
#define ODHT_NODISCARD [[nodiscard]]
#elif defined(__GNUC__)
#define ODHT_NODISCARD __attribute__((warn_unused_result))
#else
#define ODHT_NODISCARD
#endif

/*
 * How the calls below are declared. With GCC and Clang for ELF, each call is a small inline function around the symbol
 * of the library. Where you may pass NULL, it passes a pointer to a variable instead. In object files the symbol is
 * odht_NAME, and the inline function odht_inline_NAME.
 *
 * Other compilers call the symbols directly. So do users of dlsym, bindings for other languages, and tools that define
 * ODHT_PLAIN before they read this header. The symbols do not accept NULL.
 */
#if defined(__GNUC__) && defined(__ELF__) && !defined(ODHT_PLAIN)
#define ODHT_TAKES_NULL 1
#else
#define ODHT_TAKES_NULL 0
#endif

#ifdef __cplusplus
extern "C" {
#endif

/* A bound for odht_*_check_within, in groups of sixteen control bytes. Tables of keys whose hashes vary stay within it,
   up to 95 percent and 2^24 slots. */
#define ODHT_DEFAULT_GROUPS 128

/* The value of *slot after odht_*_open_at, odht_*_check_at and odht_*_check_within_at if there is no error, or if the
   first error is not in a slot. No slot has this number. */
#define ODHT_NO_SLOT SIZE_MAX

/* The result of a call. Error::Name is the name of the error in Rattle. The rest of the comment is its cause.
   docs/FORMAT.md, "Numbers for C", lists the same numbers. */
enum odht_status {
@STATUS_OK@

    /* Errors of bytes that are not a table of this shape. Calls check for @HEADER@ in this order. They return the first
       error, and then nothing is changed. After these, odht_*_open and odht_*_check read slots 0 to 9 in order, and
       the first bad slot gives 8 or 9. The next comment describes the rest of odht_*_check. */
@STATUS_OPENING@

    /* Errors of odht_*_check, and of odht_*_insert_order, which begins with this check. After @OPENING@ the check looks
       at the load factor and the padding. Then it reads all slots in order, and the first bad slot gives 8, 12 or 9.
       Last it looks for @BEHIND_SLOTS@. odht_*_grow also returns 10. */
@STATUS_CHECK@

    /* Errors of calls that make a table or insert. */
@STATUS_CALL@

    /* The error of odht_*_check_within, after @BEFORE_BOUND@ and before @BEHIND_BOUND@. */
@STATUS_BOUND@

    /* Statuses that are not errors of the library in Rattle. */
@STATUS_OTHER@
};

/* Returns a short text for a status, such as "wrong length". */
static inline const char *odht_status_name(uint32_t status)
{
    switch (status) {
@STATUS_NAMES@
    default: return "unknown status";
    }
}

/* ---- Opened tables ----
 *
 * A view is a table that you open once, for many lookups. Other calls check the header and the length each time.
 * odht_*_view_get, odht_*_view_get_all and odht_*_view_len do not check the header, and return none of the errors
 * @CHECK@.
 *
 * A view holds the pointer and the length of the bytes, and you may read both. It copies nothing, and there is
 * nothing to close. You may copy it, and any number of threads may look up in it. Initialize a variable like this:
 *
 *     odht_view view = ODHT_NO_VIEW;
 *
 * The library does not check a view. When you pass one to a lookup, all of these must be true:
 *
 * - odht_*_open_view of the same shape has written the view and returned ODHT_OK. For odht_any_* the lengths of keys
 *   and values must be the same. You may also set the members yourself, to bytes for which odht_*_open or
 *   odht_*_check has returned ODHT_OK.
 * - The bytes are still at the same address.
 * - Since then nothing has written the header of these bytes, except odht_*_insert, odht_*_insert_all and odht_*_init
 *   of the same shape, called with exactly these bytes.
 *
 * Otherwise a lookup has undefined behaviour, as with any wrong pointer in C.
 *
 * What a write to the bytes does to a view:
 *
 * - After odht_*_insert, odht_*_insert_all and odht_*_init, whatever they return, you can still use the view. It finds
 *   what they inserted.
 * - After odht_*_build, odht_*_build_growing or odht_*_grow into these bytes, you must not use it. The same is true if
 *   another program writes the mapped file.
 * - After any other write to slots only, you can use it, but results are as for bytes that are not valid.
 *
 * odht_*_open_view writes its view and does not read it. Still, if ODHT_TAKES_NULL is 0, you must initialize the view
 * first: with ODHT_NO_VIEW, or with a view whose bytes are still there.
 */
typedef struct odht_view {
    const uint8_t *bytes;
    size_t len;
} odht_view;

/* A view of no bytes. Do not look up in it. */
#ifdef __cplusplus
#define ODHT_NO_VIEW { reinterpret_cast<const uint8_t *>(""), 0 }
#else
#define ODHT_NO_VIEW { (const uint8_t *)"", 0 }
#endif

/* ---- Grow on FULL ----
 *
 * No call moves a table. If an insert returns FULL, write a larger copy of the table to other memory, insert there,
 * and go on with the copy. For a table in memory from malloc:
 *
 *     static uint32_t insert_and_grow(uint8_t **bytes, size_t *len, uint64_t key, uint32_t value, uint32_t *former)
 *     {
 *         uint32_t status = odht_u64_u32_insert(*bytes, *len, key, value, former);
 *         size_t grown_len = 0;
 *         uint8_t none = 0, *grown;
 *         if (status != ODHT_FULL)
 *             return status;
 *         status = odht_u64_u32_grow(*bytes, *len, &none, 0, &grown_len);
 *         if (status != ODHT_TOO_SMALL)
 *             return status;
 *         grown = (uint8_t *)malloc(grown_len);
 *         if (grown == NULL)
 *             return ODHT_MEMORY;
 *         status = odht_u64_u32_grow(*bytes, *len, grown, grown_len, &grown_len);
 *         if (status == ODHT_OK)
 *             status = odht_u64_u32_insert(grown, grown_len, key, value, former);
 *         if (status != ODHT_OK && status != ODHT_REPLACED) {
 *             free(grown);
 *             return status;
 *         }
 *         free(*bytes);
 *         *bytes = grown;
 *         *len = grown_len;
 *         return status;
 *     }
 *
 * With a status other than OK and REPLACED the old table is unchanged. This function frees the old bytes when it grows
 * the table, which ends their views. In C++, use odht::table of odht.hpp, which does the same.
 */
