/* All tests of the calls for C. */
#include <stdlib.h>

#include "subjects.h"

int main(void)
{
    static const struct test *const subjects[] = SUBJECTS;

    for (size_t index = 0; index < sizeof subjects / sizeof subjects[0]; index++)
        run_tests(subjects[index]);
    return report_tests() ? EXIT_SUCCESS : EXIT_FAILURE;
}
