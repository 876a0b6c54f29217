/* Counts the allocations. */
#include "requests.h"

#include <errno.h>
#include <stdbool.h>
#include <stdlib.h>

static size_t counted;
static size_t failing_request;
static bool all_fail;
static size_t blocks;

/* The functions of the C library, and those that stand in for them: names of the linker. */
void *__real_malloc(size_t size);
void *__real_calloc(size_t count, size_t size);
void *__real_realloc(void *block, size_t size);
void *__real_aligned_alloc(size_t alignment, size_t size);
int __real_posix_memalign(void **block, size_t alignment, size_t size);
void __real_free(void *block);

void *__wrap_malloc(size_t size);
void *__wrap_calloc(size_t count, size_t size);
void *__wrap_realloc(void *block, size_t size);
void *__wrap_aligned_alloc(size_t alignment, size_t size);
int __wrap_posix_memalign(void **block, size_t alignment, size_t size);
void __wrap_free(void *block);

void count_requests(size_t failing)
{
    counted = 0;
    failing_request = failing;
    all_fail = false;
}

void refuse_requests(void)
{
    counted = 0;
    all_fail = true;
}

size_t requests(void)
{
    return counted;
}

size_t blocks_in_use(void)
{
    return blocks;
}

/* Counts a request. Returns whether it fails. */
static bool is_refused(void)
{
    counted++;
    return all_fail || counted == failing_request;
}

/* Counts a block that is new. */
static void *given(void *block)
{
    if (block != NULL)
        blocks++;
    return block;
}

void *__wrap_malloc(size_t size)
{
    return is_refused() ? NULL : given(__real_malloc(size));
}

void *__wrap_calloc(size_t count, size_t size)
{
    return is_refused() ? NULL : given(__real_calloc(count, size));
}

void *__wrap_realloc(void *block, size_t size)
{
    if (is_refused())
        return NULL;
    return block == NULL ? given(__real_malloc(size)) : __real_realloc(block, size);
}

void *__wrap_aligned_alloc(size_t alignment, size_t size)
{
    return is_refused() ? NULL : given(__real_aligned_alloc(alignment, size));
}

int __wrap_posix_memalign(void **block, size_t alignment, size_t size)
{
    int answer = is_refused() ? ENOMEM : __real_posix_memalign(block, alignment, size);

    if (answer == 0)
        blocks++;
    return answer;
}

void __wrap_free(void *block)
{
    if (block != NULL)
        blocks--;
    __real_free(block);
}
