/* Runs tests, and prints their failures. */
#include "test.h"

#include <inttypes.h>
#include <setjmp.h>
#include <signal.h>
#include <stdio.h>
#include <string.h>
#include <sys/time.h>

#include "buffers.h"
#include "odht.h"
#include "requests.h"

enum { SECONDS = 60, TEXT = 200, LINE = 1000 };

static sigjmp_buf end_of_test;
static char failure[LINE];
static char current_case[TEXT];
static unsigned passed;
static unsigned failed;

/* The signal that ended the test, and the address of a fault. */
static volatile sig_atomic_t caught;
static void *volatile fault_address;

void in_case(const char *what, uint64_t number)
{
    snprintf(current_case, sizeof current_case, ", in %s %" PRIu64, what, number);
}

_Noreturn void fail(struct place place, const char *text)
{
    snprintf(failure, sizeof failure, "%s:%d: %s: %s%s", place.file, place.line, place.what, text,
             current_case);
    siglongjmp(end_of_test, 1);
}

void check_condition(struct place place, bool holds)
{
    if (!holds)
        fail(place, "found false, expected true");
}

void check_number(struct place place, uint64_t found, uint64_t expected)
{
    char text[TEXT];

    if (found == expected)
        return;
    snprintf(text, sizeof text, "found %" PRIu64 ", expected %" PRIu64, found, expected);
    fail(place, text);
}

void check_status(struct place place, uint32_t found, uint32_t expected)
{
    char text[TEXT];

    if (found == expected)
        return;
    snprintf(text, sizeof text, "found %" PRIu32 " (%s), expected %" PRIu32 " (%s)", found,
             odht_status_name(found), expected, odht_status_name(expected));
    fail(place, text);
}

/* Fails for the byte at an offset. */
static void fail_at(struct place place, size_t at, uint8_t found, uint8_t expected)
{
    char text[TEXT];

    snprintf(text, sizeof text, "byte %zu: found %u, expected %u", at, found, expected);
    fail(place, text);
}

void check_bytes(struct place place, const void *found, const void *expected, size_t len)
{
    const uint8_t *left = found;
    const uint8_t *right = expected;

    if (len == 0 || memcmp(found, expected, len) == 0)
        return;
    for (size_t at = 0; at < len; at++)
        if (left[at] != right[at])
            fail_at(place, at, left[at], right[at]);
}

void check_each_byte(struct place place, const void *found, size_t len, uint8_t byte)
{
    const uint8_t *bytes = found;

    if (len == 0 || (bytes[0] == byte && memcmp(bytes, bytes + 1, len - 1) == 0))
        return;
    for (size_t at = 0; at < len; at++)
        if (bytes[at] != byte)
            fail_at(place, at, bytes[at], byte);
}

/* Ends the test: the library has faulted, stopped or run for too long. */
static void catch_signal(int number, siginfo_t *info, void *context)
{
    (void)context;
    caught = number;
    fault_address = info->si_addr;
    siglongjmp(end_of_test, 2);
}

static void catch_signals(void)
{
    static const int signals[] = { SIGSEGV, SIGBUS, SIGFPE, SIGILL, SIGTRAP, SIGABRT, SIGPROF };
    struct sigaction action;

    memset(&action, 0, sizeof action);
    action.sa_sigaction = catch_signal;
    action.sa_flags = SA_SIGINFO;
    sigemptyset(&action.sa_mask);
    for (size_t index = 0; index < sizeof signals / sizeof signals[0]; index++)
        sigaction(signals[index], &action, NULL);
}

/* Says which signal it was, and where the fault is beside the buffer that is next to it. */
static void describe_signal(void)
{
    char where[TEXT] = "";

    if (caught == SIGSEGV || caught == SIGBUS)
        describe_address(fault_address, where, sizeof where);
    if (caught == SIGPROF)
        snprintf(where, sizeof where, "more than %d seconds of processor time", SECONDS);
    snprintf(failure, sizeof failure, "%s: %s%s", strsignal(caught), where, current_case);
}

/* Ends the test after so many seconds of processor time, so that a busy machine fails none; or lifts that, for 0. */
static void limit_time(int seconds)
{
    struct itimerval limit = { .it_value = { .tv_sec = seconds } };

    setitimer(ITIMER_PROF, &limit, NULL);
}

/* Whether the test passes with its buffers in this placement. */
static bool passes(const struct test *test, enum placement wanted)
{
    int ended;

    current_case[0] = '\0';
    place_buffers(wanted);
    count_requests(NO_REQUEST);
    ended = sigsetjmp(end_of_test, 1);
    if (ended == 0) {
        limit_time(SECONDS);
        test->run();
        check_margins();
    }
    limit_time(0);
    if (ended == 2)
        describe_signal();
    drop_buffers();
    return ended == 0;
}

static void run_test(const struct test *test)
{
    printf("test %s ... ", test->name);
    fflush(stdout);
    for (int index = 0; index < PLACEMENTS; index++) {
        if (!passes(test, (enum placement)index)) {
            printf("FAILED\n    %s\n    with buffers %s\n", failure,
                   placement_name((enum placement)index));
            failed++;
            return;
        }
    }
    puts("ok");
    passed++;
}

void run_tests(const struct test *tests)
{
    catch_signals();
    for (; tests->name != NULL; tests++)
        run_test(tests);
}

bool report_tests(void)
{
    printf("%u passed, %u failed\n", passed, failed);
    return failed == 0;
}
