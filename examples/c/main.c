/*
 * Makes tables, stores one of them in the file that its only argument names, maps the file, looks
 * keys up, and prints the errors of damaged bytes. examples/expected is the expected output, and
 * examples/README.md derives its numbers.
 */
#define _POSIX_C_SOURCE 200809L

#include <fcntl.h>
#include <inttypes.h>
#include <stdint.h>
#include <stdio.h>
#include <stdlib.h>
#include <string.h>
#include <sys/mman.h>
#include <sys/stat.h>
#include <unistd.h>

#include "odht.h"
#include "orders.h"
#include "say.h"
#include "views.h"

enum { PAIRS = 40, PERCENT = 87, LENGTH = 880, KEY_LENGTH = 16 };

static void fail(const char *what)
{
    perror(what);
    exit(EXIT_FAILURE);
}

/* ---- Keys of 64 bits ---- */

/* The pairs are 1 to 10, 2 to 20, and so on. */
static void fill_pairs(uint64_t *keys, uint32_t *values, size_t count)
{
    for (size_t index = 0; index < count; index++) {
        keys[index] = index + 1;
        values[index] = (uint32_t)(10 * (index + 1));
    }
}

static void make_table(uint8_t *bytes)
{
    uint64_t keys[PAIRS];
    uint32_t values[PAIRS];
    uint32_t former = 0;
    size_t length = 0;
    size_t accepted = 0;

    fill_pairs(keys, values, PAIRS);
    printf("keys of 64 bits, a table for 40 items at 87 percent\n");
    say("bytes_needed", odht_u64_u32_bytes_needed(PAIRS, PERCENT, &length));
    printf(", %zu bytes\n", length);
    if (length != LENGTH)
        exit(EXIT_FAILURE);
    say_line("init", odht_u64_u32_init(bytes, LENGTH, PAIRS, PERCENT));
    uint32_t status = odht_u64_u32_insert(bytes, LENGTH, 1, 10, &former);
    say_former("insert 1 to 10", status, former);
    say("insert_all 2 to 20 until 40 to 400",
        odht_u64_u32_insert_all(bytes, LENGTH, keys + 1, PAIRS - 1, values + 1, PAIRS - 1,
                                &accepted));
    printf(", %zu accepted\n", accepted);
    status = odht_u64_u32_insert(bytes, LENGTH, 7, 1000, &former);
    say_former("insert 7 to 1000", status, former);
}

static void store(const char *path, const uint8_t *bytes, size_t length)
{
    FILE *file = fopen(path, "wb");
    if (file == NULL || fwrite(bytes, 1, length, file) != length || fclose(file) != 0)
        fail(path);
}

/* Maps the file's contents as bytes that can only be read. */
static const uint8_t *map(const char *path, size_t *length)
{
    struct stat about;
    int file = open(path, O_RDONLY);
    if (file < 0 || fstat(file, &about) != 0)
        fail(path);
    *length = (size_t)about.st_size;
    void *bytes = mmap(NULL, *length, PROT_READ, MAP_PRIVATE, file, 0);
    if (bytes == MAP_FAILED)
        fail(path);
    close(file);
    return (const uint8_t *)bytes;
}

static void look_up(const uint8_t *bytes, size_t length)
{
    static const uint64_t single[] = {1, 7, 40, 0, 41, 1000000};
    static const uint64_t together[] = {1, 41, 40, 0};
    uint32_t values[] = {5, 5, 5, 5};
    uint8_t found[4];

    say_line("open", odht_u64_u32_open(bytes, length));
    for (size_t index = 0; index < sizeof single / sizeof single[0]; index++) {
        uint32_t value = 0;
        uint32_t status = odht_u64_u32_get(bytes, length, single[index], &value);
        say_value(single[index], status, value);
    }
    say("get_all 1 41 40 0",
        odht_u64_u32_get_all(bytes, length, together, 4, values, 4, found, 4));
    say_found(4, found, values);
}

static void walk(const uint8_t *bytes, size_t length)
{
    uint64_t keys[PAIRS];
    uint32_t values[PAIRS];
    uint64_t key_sum = 0;
    uint64_t value_sum = 0;
    size_t cursor = 0;
    size_t count = 0;

    say("len", odht_u64_u32_len(bytes, length, &count));
    printf(", %zu items\n", count);
    say("walk", odht_u64_u32_walk(bytes, length, &cursor, keys, PAIRS, values, PAIRS, &count));
    for (size_t index = 0; index < count; index++) {
        key_sum += keys[index];
        value_sum += values[index];
    }
    printf(", %zu pairs, the keys add up to %" PRIu64 ", the values to %" PRIu64 "\n", count,
           key_sum, value_sum);
    printf("walk: the first pair is %" PRIu64 " to %" PRIu32 ", the last is %" PRIu64
           " to %" PRIu32 "\n", keys[0], values[0], keys[count - 1], values[count - 1]);
    cursor = 0;
    say_line("walk into 39 places",
             odht_u64_u32_walk(bytes, length, &cursor, keys, PAIRS - 1, values, PAIRS - 1, &count));
    say("walk on", odht_u64_u32_walk(bytes, length, &cursor, keys, PAIRS, values, PAIRS, &count));
    printf(", %zu pair, %" PRIu64 " to %" PRIu32 "\n", count, keys[0], values[0]);
}

/* Builds the stored table again with one call, from the pairs in it. */
static void build(const uint8_t *bytes)
{
    uint64_t keys[PAIRS];
    uint32_t values[PAIRS];
    uint8_t out[LENGTH];
    size_t length = 0;

    fill_pairs(keys, values, PAIRS);
    values[7 - 1] = 1000;
    say("build into 879 bytes", odht_u64_u32_build(keys, PAIRS, values, PAIRS, PERCENT, out,
                                                   LENGTH - 1, &length));
    printf(", %zu bytes\n", length);
    say("build",
        odht_u64_u32_build(keys, PAIRS, values, PAIRS, PERCENT, out, LENGTH, &length));
    printf(", %zu bytes, %s the stored bytes\n", length,
           memcmp(out, bytes, LENGTH) == 0 ? "equal to" : "unlike");
    memset(out, 0, LENGTH);
    say("build_growing",
        odht_u64_u32_build_growing(keys, PAIRS, values, PAIRS, out, LENGTH, &length));
    printf(", %zu bytes, %s the stored bytes\n", length,
           memcmp(out, bytes, LENGTH) == 0 ? "equal to" : "unlike");
}

static void fill_to_the_maximum(void)
{
    uint64_t keys[20];
    uint32_t values[20];
    uint8_t bytes[256];
    uint32_t value = 0;
    size_t length = 0;
    size_t count = 0;

    fill_pairs(keys, values, 20);
    printf("\na table for 13 items at 87 percent\n");
    say("bytes_needed", odht_u64_u32_bytes_needed(13, PERCENT, &length));
    printf(", %zu bytes\n", length);
    say_line("init", odht_u64_u32_init(bytes, sizeof bytes, 13, PERCENT));
    say("insert_all 1 to 10 until 20 to 200",
        odht_u64_u32_insert_all(bytes, sizeof bytes, keys, 20, values, 20, &count));
    printf(", %zu accepted\n", count);
    say_line("insert 14 to 140", odht_u64_u32_insert(bytes, sizeof bytes, 14, 140, &value));
    uint32_t status = odht_u64_u32_insert(bytes, sizeof bytes, 7, 1000, &value);
    say_former("insert 7 to 1000", status, value);
    status = odht_u64_u32_get(bytes, sizeof bytes, 7, &value);
    say_value(7, status, value);
    say("len", odht_u64_u32_len(bytes, sizeof bytes, &count));
    printf(", %zu items\n", count);
}

/* ---- Keys of 16 bytes ---- */

/* The pairs are 1 to 100, 2 to 200, and so on. All bytes of a key are its number. */
static void fill_byte_pairs(uint8_t *keys, uint32_t *values, size_t count)
{
    for (size_t index = 0; index < count; index++) {
        memset(keys + index * KEY_LENGTH, (int)(index + 1), KEY_LENGTH);
        values[index] = (uint32_t)(100 * (index + 1));
    }
}

static void insert_bytes(uint8_t *bytes, size_t length, const uint8_t *keys,
                         const uint32_t *values)
{
    uint32_t former = 0;
    size_t accepted = 0;

    say_line("init", odht_b16_u32_init(bytes, length, 5, 50));
    uint32_t status = odht_b16_u32_insert(bytes, length, keys, 100, &former);
    say_former("insert 1 to 100", status, former);
    status = odht_b16_u32_insert(bytes, length, keys, 150, &former);
    say_former("insert 1 to 150", status, former);
    say("insert_all 2 to 200 until 5 to 500",
        odht_b16_u32_insert_all(bytes, length, keys + KEY_LENGTH, 4, values + 1, 4, &accepted));
    printf(", %zu accepted\n", accepted);
}

static void look_up_bytes(const uint8_t *bytes, size_t length, const uint8_t *keys)
{
    uint8_t together[3 * KEY_LENGTH];
    uint32_t values[] = {5, 5, 5};
    uint32_t value = 0;
    uint8_t found[3];

    uint32_t status = odht_b16_u32_get(bytes, length, keys + 2 * KEY_LENGTH, &value);
    say_value(3, status, value);
    status = odht_b16_u32_get(bytes, length, keys + 8 * KEY_LENGTH, &value);
    say_value(9, status, value);
    memcpy(together, keys, KEY_LENGTH);
    memcpy(together + KEY_LENGTH, keys + 8 * KEY_LENGTH, KEY_LENGTH);
    memcpy(together + 2 * KEY_LENGTH, keys + 4 * KEY_LENGTH, KEY_LENGTH);
    say("get_all 1 9 5",
        odht_b16_u32_get_all(bytes, length, together, 3, values, 3, found, 3));
    say_found(3, found, values);
}

static void walk_bytes(const uint8_t *bytes, size_t length)
{
    uint8_t keys[5 * KEY_LENGTH];
    uint32_t values[5];
    uint32_t key_sum = 0;
    uint32_t value_sum = 0;
    size_t cursor = 0;
    size_t count = 0;

    say("len", odht_b16_u32_len(bytes, length, &count));
    printf(", %zu items\n", count);
    say("walk", odht_b16_u32_walk(bytes, length, &cursor, keys, 5, values, 5, &count));
    for (size_t index = 0; index < count; index++) {
        key_sum += keys[index * KEY_LENGTH];
        value_sum += values[index];
    }
    printf(", %zu pairs, the keys add up to %" PRIu32 ", the values to %" PRIu32 "\n", count,
           key_sum, value_sum);
}

static void byte_keys(void)
{
    uint8_t keys[9 * KEY_LENGTH];
    uint32_t values[9];
    uint8_t bytes[384];
    size_t length = 0;
    size_t accepted = 0;

    fill_byte_pairs(keys, values, 9);
    printf("\nkeys of 16 bytes, a table for 5 items at 50 percent\n");
    say("bytes_needed", odht_b16_u32_bytes_needed(5, 50, &length));
    printf(", %zu bytes\n", length);
    insert_bytes(bytes, sizeof bytes, keys, values);
    look_up_bytes(bytes, sizeof bytes, keys);
    walk_bytes(bytes, sizeof bytes);
    insert_behind_view(bytes, sizeof bytes, keys + 5 * KEY_LENGTH);
    say("insert_all 6 to 600 until 9 to 900",
        odht_b16_u32_insert_all(bytes, sizeof bytes, keys + 5 * KEY_LENGTH, 4, values + 5, 4,
                                &accepted));
    printf(", %zu accepted\n", accepted);
    say_line("open as keys of 64 bits", odht_u64_u32_open(bytes, sizeof bytes));
    say_line("check", odht_b16_u32_check(bytes, sizeof bytes));
    bytes[369] = 255;
    say_line("check where byte 369 is 255", odht_b16_u32_check(bytes, sizeof bytes));
}

/* ---- Errors ---- */

static void open_damaged(const uint8_t *bytes, size_t length)
{
    static const struct { size_t index; uint8_t byte; } changes[] = {
        {0, 80}, {27, 3}, {5, 16}, {16, 24}, {16, 8}, {16, 32}, {32, 7}, {808, 15},
    };
    uint8_t copy[LENGTH];

    printf("\ndamaged copies of the first table\n");
    say_line("none", odht_u64_u32_open(bytes, length));
    say_line("31 bytes are left", odht_u64_u32_open(bytes, 31));
    say_line("one byte is cut off", odht_u64_u32_open(bytes, length - 1));
    for (size_t index = 0; index < sizeof changes / sizeof changes[0]; index++) {
        memcpy(copy, bytes, LENGTH);
        copy[changes[index].index] = changes[index].byte;
        printf("byte %zu is %d", changes[index].index, changes[index].byte);
        say_line("", odht_u64_u32_open(copy, LENGTH));
    }
}

/* Opening finds none of these changes. */
static void check_damaged(const uint8_t *bytes, size_t length)
{
    static const struct { size_t index; uint8_t byte; } changes[] = {
        {29, 0}, {30, 1}, {800, 128}, {872, 255}, {8, 41}, {29, 3},
    };
    uint8_t copy[LENGTH];

    printf("\nthe whole check of such copies\n");
    say_line("none", odht_u64_u32_check(bytes, length));
    for (size_t index = 0; index < sizeof changes / sizeof changes[0]; index++) {
        memcpy(copy, bytes, LENGTH);
        copy[changes[index].index] = changes[index].byte;
        printf("byte %zu is %d", changes[index].index, changes[index].byte);
        say(", open", odht_u64_u32_open(copy, LENGTH));
        say_line(", check", odht_u64_u32_check(copy, LENGTH));
    }
}

static void wrong_arguments(const uint8_t *bytes)
{
    static const uint64_t keys[] = {1, 2, 3};
    uint32_t values[] = {10, 20, 30};
    uint8_t found[] = {0, 0, 0};
    uint8_t copy[LENGTH];
    size_t number = 0;

    memcpy(copy, bytes, LENGTH);
    printf("\nwrong arguments\n");
    say_line("init of 879 bytes for 40 items at 87 percent",
             odht_u64_u32_init(copy, LENGTH - 1, PAIRS, PERCENT));
    say_line("init of 880 bytes for 40 items at 0 percent",
             odht_u64_u32_init(copy, LENGTH, PAIRS, 0));
    say_line("init of 880 bytes for 40 items at 101 percent",
             odht_u64_u32_init(copy, LENGTH, PAIRS, 101));
    printf("the bytes are %s\n", memcmp(copy, bytes, LENGTH) == 0 ? "as they were" : "changed");
    say_line("bytes_needed for 18446744073709551615 items",
             odht_u64_u32_bytes_needed(SIZE_MAX, PERCENT, &number));
    say_line("insert_all of 3 keys and 2 values",
             odht_u64_u32_insert_all(copy, LENGTH, keys, 3, values, 2, &number));
    say_line("get_all of 3 keys, 3 values and 2 flags",
             odht_u64_u32_get_all(copy, LENGTH, keys, 3, values, 3, found, 2));
}

int main(int count, char **arguments)
{
    uint8_t made[LENGTH];
    size_t length = 0;

    if (count != 2) {
        fprintf(stderr, "usage: %s FILE\n", arguments[0]);
        return EXIT_FAILURE;
    }
    make_table(made);
    store(arguments[1], made, LENGTH);
    const uint8_t *bytes = map(arguments[1], &length);
    printf("stored %d bytes, there are %zu bytes\n", LENGTH, length);
    look_up(bytes, length);
    look_up_in_view(bytes, length);
    walk(bytes, length);
    build(bytes);
    fill_to_the_maximum();
    order_of_inserts();
    byte_keys();
    unmade_table();
    open_damaged(bytes, length);
    check_damaged(bytes, length);
    wrong_arguments(bytes);
    return EXIT_SUCCESS;
}
