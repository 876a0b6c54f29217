/* Finds the tables of the Rust compiler in files of its metadata. Each table maps hashes of definitions, of 8 bytes, to
   their indices. The program checks each table, looks up each of its keys, and makes its bytes again with inserts. It
   prints a line for each table: its offset, its length, its number of items and its slot count. */
#include <stdint.h>
#include <stdio.h>
#include <stdlib.h>
#include <string.h>

#include "odht.h"

enum { HEADER = 32, KEY = 8, ENTRY = 12 };

static void stop(const char *what)
{
    fprintf(stderr, "definitions: %s\n", what);
    exit(EXIT_FAILURE);
}

static void must_be(uint32_t status, uint32_t wanted, const char *call)
{
    if (status != wanted) {
        fprintf(stderr, "definitions: %s: %s\n", call, odht_status_name(status));
        exit(EXIT_FAILURE);
    }
}

static void *allocated(size_t count, size_t size)
{
    void *memory = calloc(count + 1, size);
    if (!memory)
        stop("out of memory");
    return memory;
}

static uint8_t *read_file(const char *name, size_t *len)
{
    FILE *file = fopen(name, "rb");
    long end = file && fseek(file, 0, SEEK_END) == 0 ? ftell(file) : -1;
    uint8_t *bytes;

    if (end < 0 || fseek(file, 0, SEEK_SET) != 0)
        stop("the file cannot be read");
    bytes = (uint8_t *)allocated((size_t)end, 1);
    *len = fread(bytes, 1, (size_t)end, file);
    fclose(file);
    return bytes;
}

/* Returns the value in the entry of a slot. It follows the key, as a little-endian number of four bytes. */
static uint32_t stored_value(const uint8_t *entry)
{
    const uint8_t *value = entry + KEY;
    return value[0] | (uint32_t)value[1] << 8 | (uint32_t)value[2] << 16 | (uint32_t)value[3] << 24;
}

/* Looks up each key of the walk in a view. */
static void look_up_all(const uint8_t *table, size_t len, size_t count)
{
    uint8_t *keys = (uint8_t *)allocated(count, KEY);
    uint32_t *values = (uint32_t *)allocated(count, sizeof *values);
    odht_view view = ODHT_NO_VIEW;
    size_t cursor = 0;
    size_t walked = 0;

    must_be(odht_b8_u32_walk(table, len, &cursor, keys, count, values, count, &walked), ODHT_OK,
            "walk");
    must_be(odht_b8_u32_open_view(table, len, &view), ODHT_OK, "open_view");
    for (size_t index = 0; index < count; index++) {
        uint32_t found = 0;
        must_be(odht_b8_u32_view_get(&view, keys + index * KEY, &found), ODHT_OK, "view_get");
        if (found != values[index])
            stop("a lookup returns another value than the walk");
    }
    free(keys);
    free(values);
}

/* Inserts the pairs into an empty table in the order that insert_order returns. */
static void make_again(const uint8_t *table, size_t len, size_t count)
{
    size_t *slots = (size_t *)allocated(count, sizeof *slots);
    uint8_t *again = (uint8_t *)allocated(len, 1);

    must_be(odht_b8_u32_insert_order(table, len, slots, count), ODHT_OK, "insert_order");
    must_be(odht_b8_u32_init(again, len, count, 87), ODHT_OK, "init");
    for (size_t index = 0; index < count; index++) {
        const uint8_t *entry = table + HEADER + slots[index] * ENTRY;
        must_be(odht_b8_u32_insert(again, len, entry, stored_value(entry), NULL), ODHT_OK,
                "insert");
    }
    if (memcmp(again, table, len) != 0)
        stop("the inserts make other bytes");
    free(slots);
    free(again);
}

/* Returns whether the bytes are a valid table. Stops the program if a search may be longer than the default bound. */
static int is_valid(const uint8_t *bytes, size_t len)
{
    uint32_t status = odht_b8_u32_check_within(bytes, len, ODHT_DEFAULT_GROUPS);

    if (status == ODHT_SEARCH_TOO_LONG)
        stop("a search is longer than the default bound");
    return status == ODHT_OK;
}

/* Reads and checks the table of definitions at the start of the bytes. Returns its length, or 0 if there is none. */
static size_t read_table(const uint8_t *front, size_t rest, size_t offset)
{
    size_t len = 0;
    size_t count = 0;
    size_t slots = 0;

    if (odht_b8_u32_table_len(front, rest, &len) != ODHT_OK)
        return 0;
    if (!is_valid(front, len))
        return 0;
    must_be(odht_b8_u32_len(front, len, &count), ODHT_OK, "len");
    must_be(odht_b8_u32_sizes(front, len, &slots, NULL, NULL), ODHT_OK, "sizes");
    look_up_all(front, len, count);
    make_again(front, len, count);
    printf("%zu %zu %zu %zu\n", offset, len, count, slots);
    return len;
}

int main(int count, char **words)
{
    for (int word = 1; word < count; word++) {
        size_t len = 0;
        uint8_t *bytes = read_file(words[word], &len);
        size_t at = 0;

        while (at + HEADER <= len) {
            const uint8_t *tag = (const uint8_t *)memchr(bytes + at, 'O', len - at);
            if (!tag)
                break;
            at = (size_t)(tag - bytes);
            size_t table = read_table(tag, len - at, at);
            at += table ? table : 1;
        }
        free(bytes);
    }
    return EXIT_SUCCESS;
}
