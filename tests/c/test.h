/*
 * Tests are functions in tables. A failed assertion prints the file, the line, the actual and the expected value. It
 * ends its test, and the other tests still run. A fault, such as a read outside of a buffer, does the same.
 */
#ifndef TEST_H
#define TEST_H

#include <stdbool.h>
#include <stddef.h>
#include <stdint.h>

/* A test and its name. A table of tests ends with END_OF_TESTS. */
struct test {
    const char *name;
    void (*run)(void);
};

#define TEST(function) { #function, function }
#define END_OF_TESTS { NULL, NULL }

/* The place and the subject of an assertion. */
struct place {
    const char *what;
    const char *file;
    int line;
};

#define HERE(what) ((struct place){ what, __FILE__, __LINE__ })

/* Asserts a number. */
#define EQUAL(found, expected) check_number(HERE(#found), (uint64_t)(found), (uint64_t)(expected))

/* Asserts a status, and also prints its name. */
#define STATUS(call, expected) check_status(HERE(#call), (call), (expected))

/* Asserts a condition. */
#define HOLDS(condition) check_condition(HERE(#condition), (condition))

/* Asserts `len` bytes. */
#define SAME_BYTES(found, expected, len) check_bytes(HERE(#found), (found), (expected), (len))

/* Asserts that each of `len` bytes is this byte. */
#define ALL_BYTES(found, len, byte) check_each_byte(HERE(#found), (found), (len), (byte))

void check_number(struct place place, uint64_t found, uint64_t expected);
void check_status(struct place place, uint32_t found, uint32_t expected);
void check_condition(struct place place, bool holds);
void check_bytes(struct place place, const void *found, const void *expected, size_t len);
void check_each_byte(struct place place, const void *found, size_t len, uint8_t byte);

/* Names the subject of the next assertions, such as a row of a table. A failed assertion prints it. */
void in_case(const char *what, uint64_t number);

/* Ends the test as failed. */
_Noreturn void fail(struct place place, const char *text);

/* Runs the tests of a table, each with its buffers in every placement, and prints a line for each. */
void run_tests(const struct test *tests);

/* Prints the numbers of passed and failed tests. Returns whether none failed. */
bool report_tests(void);

#endif
