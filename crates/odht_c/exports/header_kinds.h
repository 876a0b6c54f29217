/* ---- How the calls are declared ----
 *
 * ODHT_DECLARE_MAP and ODHT_DECLARE_SET declare all calls of a shape S. The lines at the end of this file use them,
 * once for each shape. For each call they list the result, the name, the parameters and the body of its inline
 * function.
 */
#if ODHT_TAKES_NULL
/* Declares the symbol of the library, and defines the inline function around it. */
#define ODHT_CALL(result, name, parameters, body) \
    result odht_symbol_##name parameters __asm__("odht_" #name); \
    ODHT_NODISCARD static inline result odht_##name parameters __asm__("odht_inline_" #name); \
    static inline result odht_##name parameters \
    { \
        body \
    }

/* The same in two parts, for calls whose inline function has other parameters than the symbol. */
#define ODHT_SYMBOL(result, name, parameters) \
    result odht_symbol_##name parameters __asm__("odht_" #name);
#define ODHT_FUNCTION(result, name, parameters, body) \
    ODHT_NODISCARD static inline result odht_##name parameters __asm__("odht_inline_" #name); \
    static inline result odht_##name parameters \
    { \
        body \
    }
#else
#define ODHT_CALL(result, name, parameters, body) \
    ODHT_NODISCARD extern result odht_##name parameters;
#define ODHT_SYMBOL(result, name, parameters)
#define ODHT_FUNCTION(result, name, parameters, body)
#endif

/* For keys and values that are numbers of `bits` bits. In this order: the type of an array item, a parameter, an
   out-parameter (a pointer that may be NULL), and a variable for a result that the caller does not need. The last two
   are arrays, to read and to write, whose pointer may be NULL. */
#define ODHT_NUMBER_ITEM(bits) uint##bits##_t
#define ODHT_NUMBER_GIVEN(bits, name) uint##bits##_t name
#define ODHT_NUMBER_WANTED(bits, name) uint##bits##_t *name
#define ODHT_NUMBER_UNWANTED(bits) uint##bits##_t unwanted[1] = { 0 };
#define ODHT_NUMBER_READ(bits, items, len) odht_read_uint##bits##_t(items, len)
#define ODHT_NUMBER_WRITE(bits, items, len) odht_write_uint##bits##_t(items, len)

/* The same for keys and values of `count` bytes. */
#define ODHT_BYTES_ITEM(count) uint8_t
#define ODHT_BYTES_GIVEN(count, name) const uint8_t name[count]
#define ODHT_BYTES_WANTED(count, name) uint8_t name[count]
#define ODHT_BYTES_UNWANTED(count) uint8_t unwanted[count] = { 0 };
#define ODHT_BYTES_READ(count, items, len) odht_read_uint8_t(items, len)
#define ODHT_BYTES_WRITE(count, items, len) odht_write_uint8_t(items, len)
