/*
 * A library that refuses a program's requests for memory. LD_PRELOAD loads it into the program.
 *
 * Requests are counted from 1. Of these it refuses the one of the number that REFUSED gives, or with REFUSED_FROM that
 * one and all after it, and it writes a line "refused" to the descriptor that REFUSALS gives for each. All other requests
 * are handed on to the C library's own functions. It counts what the programs of this repository ask by, malloc, calloc
 * and realloc, and is for programs of one thread.
 */
#include <errno.h>
#include <limits.h>
#include <stdbool.h>
#include <stddef.h>
#include <stdlib.h>
#include <unistd.h>

/* The C library's own functions, which answer also while it is being loaded. */
extern void *__libc_malloc(size_t size);
extern void *__libc_calloc(size_t count, size_t size);
extern void *__libc_realloc(void *old, size_t size);

static const char TOLD[] = "refused\n";

static unsigned long counted = 0;
static unsigned long first_refused = 0;
static unsigned long last_refused = 0;
static int told_to = -1;

/* Returns the number that the environment has under a name, or 0. */
static unsigned long number_of(const char *name)
{
    const char *value = getenv(name);
    return value == NULL ? 0 : strtoul(value, NULL, 10);
}

__attribute__((constructor)) static void read_environment(void)
{
    counted = 0;
    told_to = (int)number_of("REFUSALS");
    first_refused = number_of("REFUSED");
    last_refused = first_refused;
    if (first_refused == 0) {
        first_refused = number_of("REFUSED_FROM");
        last_refused = first_refused == 0 ? 0 : ULONG_MAX;
    }
}

/* Counts a request, and tells whether it is refused. */
static bool is_refused(void)
{
    if (++counted < first_refused || counted > last_refused)
        return false;
    (void)!write(told_to, TOLD, sizeof TOLD - 1);
    errno = ENOMEM;
    return true;
}

void *malloc(size_t size)
{
    return is_refused() ? NULL : __libc_malloc(size);
}

void *calloc(size_t count, size_t size)
{
    return is_refused() ? NULL : __libc_calloc(count, size);
}

void *realloc(void *old, size_t size)
{
    return is_refused() ? NULL : __libc_realloc(old, size);
}
