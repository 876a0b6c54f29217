/* The tables of tests, one for each file. */
#ifndef SUBJECTS_H
#define SUBJECTS_H

#include "test.h"

extern const struct test harness_tests[];
extern const struct test any_list_tests[];
extern const struct test any_order_tests[];
extern const struct test any_tests[];
extern const struct test any_view_tests[];
extern const struct test bound_tests[];
extern const struct test build_tests[];
extern const struct test carried_tests[];
extern const struct test changed_table_tests[];
extern const struct test check_tests[];
extern const struct test error_tests[];
extern const struct test grow_tests[];
extern const struct test header_tests[];
extern const struct test init_tests[];
extern const struct test insert_tests[];
extern const struct test large_tests[];
extern const struct test list_tests[];
extern const struct test lookup_tests[];
extern const struct test memory_tests[];
extern const struct test order_tests[];
extern const struct test place_tests[];
extern const struct test prefix_tests[];
extern const struct test shape_tests[];
extern const struct test status_tests[];
extern const struct test view_tests[];
extern const struct test walk_tests[];
extern const struct test whole_check_tests[];

/* The tables in the order in which they run. */
#define SUBJECTS \
    { \
        harness_tests, any_list_tests, any_order_tests, any_tests, any_view_tests, bound_tests, \
        build_tests, carried_tests, changed_table_tests, check_tests, error_tests, grow_tests, \
        header_tests, init_tests, insert_tests, large_tests, list_tests, lookup_tests, \
        memory_tests, order_tests, place_tests, prefix_tests, shape_tests, status_tests, \
        view_tests, walk_tests, whole_check_tests \
    }

#endif
