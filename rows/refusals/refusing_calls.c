/*
 * Refuses the requests for memory that single calls make, in turn. It is linked into the program of the calls, which writes
 * the line "ready" to standard output in front of each call, and another line behind it.
 *
 * The requests between the two are counted from 1. Where the environment's REFUSED_IN_TURN is "one", the first call is
 * refused its first request alone, the second call its second, and so on; where it is "all", also each request after that
 * one. Behind each call a line is written to the descriptor that REFUSALS gives: how many requests the call has made, and
 * how many of them were refused. All other requests are handed on to the C library's own functions. It is for programs of
 * one thread.
 */
#include <errno.h>
#include <stdbool.h>
#include <stddef.h>
#include <stdio.h>
#include <stdlib.h>
#include <string.h>
#include <unistd.h>

/* The C library's own functions. */
extern void *__libc_malloc(size_t size);
extern void *__libc_calloc(size_t count, size_t size);
extern void *__libc_realloc(void *old, size_t size);
extern void __libc_free(void *old);
extern ssize_t __write(int descriptor, const void *bytes, size_t length);

static const char READY[] = "ready\n";

static bool is_in_call = false;
static unsigned long calls = 0;
static unsigned long counted = 0;
static unsigned long refused = 0;
static bool refuses_one = false;
static bool refuses_all = false;

/* A call begins. */
static void begin(void)
{
    const char *which = getenv("REFUSED_IN_TURN");
    refuses_one = which != NULL && strcmp(which, "one") == 0;
    refuses_all = which != NULL && strcmp(which, "all") == 0;
    calls++;
    counted = 0;
    refused = 0;
    is_in_call = true;
}

/* The call has ended, if there is one. */
static void end(void)
{
    char line[64];
    const char *told_to = getenv("REFUSALS");
    if (!is_in_call)
        return;
    is_in_call = false;
    if (told_to != NULL) {
        int length = snprintf(line, sizeof line, "%lu %lu\n", counted, refused);
        (void)!__write(atoi(told_to), line, (size_t)length);
    }
}

/* Counts a request, and tells whether it is refused. */
static bool is_refused(void)
{
    if (!is_in_call)
        return false;
    counted++;
    if (!(refuses_one && counted == calls) && !(refuses_all && counted >= calls))
        return false;
    refused++;
    errno = ENOMEM;
    return true;
}

void *malloc(size_t size)
{
    return is_refused() ? NULL : __libc_malloc(size);
}

void *calloc(size_t count, size_t size)
{
    return is_refused() ? NULL : __libc_calloc(count, size);
}

void *realloc(void *old, size_t size)
{
    return is_refused() ? NULL : __libc_realloc(old, size);
}

void free(void *old)
{
    __libc_free(old);
}

ssize_t write(int descriptor, const void *bytes, size_t length)
{
    ssize_t written;
    if (descriptor != STDOUT_FILENO)
        return __write(descriptor, bytes, length);
    end();
    written = __write(descriptor, bytes, length);
    if (length == sizeof READY - 1 && memcmp(bytes, READY, length) == 0)
        begin();
    return written;
}
