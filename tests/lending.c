/* Lending. Each lent area of each side lies at the end of its own pages, with bytes of a known pattern before it and a
   page that cannot be touched after it: a callee that reads or writes past the length it was given dies on the spot. */
#define _DEFAULT_SOURCE
#include "lending.h"

#include <stdio.h>
#include <stdlib.h>
#include <string.h>
#include <sys/mman.h>
#include <unistd.h>

enum { AREA = 1 << 20, BEFORE = 64, BEFORE_PATTERN = 0x5A };

static uint8_t *area_end[SIDES][SLOTS];

static uint8_t *end_of(enum side side, enum slot slot)
{
    if (area_end[side][slot] == NULL) {
        size_t page = (size_t)sysconf(_SC_PAGESIZE);
        uint8_t *area = mmap(NULL, AREA + page, PROT_READ | PROT_WRITE, MAP_PRIVATE | MAP_ANONYMOUS, -1, 0);

        if (area == MAP_FAILED || mprotect(area + AREA, page, PROT_NONE) != 0) {
            perror("compare: no memory to lend");
            exit(EXIT_FAILURE);
        }
        area_end[side][slot] = area + AREA;
    }
    return area_end[side][slot];
}

static uint8_t *lend(enum side side, enum slot slot, struct lent lent)
{
    uint8_t *at;

    if (lent.length > AREA - BEFORE) {
        printf("a case lends more than there is\n");
        exit(EXIT_FAILURE);
    }
    at = end_of(side, slot) - lent.length;
    memset(at - BEFORE, BEFORE_PATTERN, BEFORE);
    memcpy(at, lent.bytes, lent.length);
    return at;
}

uint8_t *held[SIDES][SLOTS];

void give(enum slot slot, struct lent lent)
{
    for (int side = 0; side < SIDES; side++)
        held[side][slot] = lend(side, slot, lent);
}

static bool is_as_lent(enum side side, enum slot slot, struct lent lent)
{
    return memcmp(end_of(side, slot) - lent.length, lent.bytes, lent.length) == 0;
}

static bool is_whole_before(enum side side, enum slot slot, size_t length)
{
    static uint8_t pattern[BEFORE];

    memset(pattern, BEFORE_PATTERN, BEFORE);
    return memcmp(end_of(side, slot) - length - BEFORE, pattern, BEFORE) == 0;
}

void compare_area(enum call call, const char *area, enum slot slot, struct lent lent, bool may_change)
{
    const uint8_t *left = end_of(GALHOVEIA, slot) - lent.length;
    const uint8_t *right = end_of(SECOND, slot) - lent.length;
    size_t at = 0;

    check(is_whole_before(GALHOVEIA, slot, lent.length), "%s writes before its %s", call_name[call], area);
    check(is_whole_before(SECOND, slot, lent.length), "second %s writes before its %s", call_name[call], area);
    if (memcmp(left, right, lent.length) != 0)
        while (left[at] == right[at])
            at++;
    else
        at = lent.length;
    check(at == lent.length, "%s: %s differs at %zu: %u against %u", call_name[call], area, at,
          at < lent.length ? left[at] : 0, at < lent.length ? right[at] : 0);
    if (!may_change) {
        check(is_as_lent(GALHOVEIA, slot, lent), "%s changes its %s", call_name[call], area);
        check(is_as_lent(SECOND, slot, lent), "second %s changes its %s", call_name[call], area);
    }
}
