/* Put before an example's first line by examples/c/test (-include): counts what malloc gives and free takes back, and ends with status 3 where something is left. */
#include <stdio.h>
#include <stdlib.h>

static long held;

static void *counted_malloc(size_t n)
{
    void *at = malloc(n);
    held += at != NULL;
    return at;
}

static void counted_free(void *at)
{
    held -= at != NULL;
    free(at);
}

__attribute__((destructor)) static void tell(void)
{
    if (held == 0)
        return;
    fprintf(stderr, "%ld pieces of memory are not given back\n", held);
    fflush(stdout);
    _Exit(3);
}

#define malloc counted_malloc
#define free counted_free
