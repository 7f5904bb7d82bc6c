/* malloc, realloc and free, refused from one call on, since some of the memory that is asked for isn't wanted at all; and a
 * buffer that is watched. Linked with --wrap for each. */
#ifndef REFUSING_H
#define REFUSING_H

#include <idlc.h>

#include <stdio.h>
#include <stdlib.h>
#include <string.h>

void *__real_malloc(size_t size);
void *__real_realloc(void *at, size_t size);
void __real_free(void *at);
void *__wrap_malloc(size_t size);
void *__wrap_realloc(void *at, size_t size);
void __wrap_free(void *at);

static long asked, refused_at, held;

static int is_refused(void)
{
    return ++asked >= refused_at && refused_at;
}

void *__wrap_malloc(size_t size)
{
    if (is_refused())
        return NULL;
    void *at = __real_malloc(size);
    held += at != NULL;
    return at;
}

void *__wrap_realloc(void *at, size_t size)
{
    if (is_refused())
        return NULL;
    void *moved = __real_realloc(at, size);
    held += !at && moved;
    return moved;
}

void __wrap_free(void *at)
{
    held -= at != NULL;
    __real_free(at);
}

static uint8_t out[1 << 10], as_it_was[1 << 10];

static void must(int holds, const char *what)
{
    if (!holds) {
        printf("not so: %s\n", what);
        exit(1);
    }
}

static void begin(long refuse)
{
    memset(out, 0xa5, sizeof out);
    memset(as_it_was, 0xa5, sizeof as_it_was);
    asked = 0;
    refused_at = refuse;
}

static int is_untouched(void)
{
    return memcmp(out, as_it_was, sizeof out) == 0;
}

/* Whether the first octets are these, and those behind them as they were. */
static int is_written(const void *octets, size_t len)
{
    return memcmp(out, octets, len) == 0 && memcmp(out + len, as_it_was + len, sizeof out - len) == 0;
}

#endif
