/* Counting, progress lines, and chance. */
#include "support.h"

#include <stdarg.h>
#include <stdio.h>

/* ---- Counting ---- */

unsigned long passed, failed;

enum { FAILURES_PRINTED = 40 };

void check(bool holds, const char *format, ...)
{
    va_list arguments;

    if (holds) {
        passed++;
        return;
    }
    failed++;
    if (failed > FAILURES_PRINTED)
        return;
    printf("FAILED ");
    va_start(arguments, format);
    vprintf(format, arguments);
    va_end(arguments);
    printf(failed == FAILURES_PRINTED ? "\n(further failures are only counted)\n" : "\n");
    fflush(stdout);
}

void progress(const char *format, ...)
{
    va_list arguments;

    va_start(arguments, format);
    vprintf(format, arguments);
    va_end(arguments);
    printf("\n");
    fflush(stdout);
}

/* ---- Chance (xorshift64*) ---- */

static uint64_t state = 1;

void seed_random(uint64_t seed)
{
    state = seed ? seed : 1;
}

uint64_t any_64(void)
{
    state ^= state >> 12;
    state ^= state << 25;
    state ^= state >> 27;
    return state * UINT64_C(2685821657736338717);
}

uint32_t any(uint32_t below)
{
    return (uint32_t)((any_64() >> 32) * below >> 32);
}
