/* Work that may fail. */
#include "attempt.h"

#include <setjmp.h>
#include <stdint.h>
#include <stdlib.h>

/* ---- Memory ---- */

/* What stands before each piece of memory that is taken: its neighbours, newest first, and its number in the order of
   taking, which says whether an attempt took it. */
union block {
    struct {
        union block *older, *newer;
        uint64_t number;
    } is;
    max_align_t aligned;
};

static union block *newest;
static uint64_t taken;

static void link_in(union block *block)
{
    if (block->is.older != NULL)
        block->is.older->is.newer = block;
    if (block->is.newer != NULL)
        block->is.newer->is.older = block;
    else
        newest = block;
}

void *take_memory(size_t count, size_t size)
{
    union block *block = NULL;

    if (size == 0 || count <= (SIZE_MAX - sizeof *block) / size)
        block = calloc(1, sizeof *block + count * size);
    if (block == NULL)
        fail("not enough memory");
    block->is.older = newest;
    block->is.number = ++taken;
    link_in(block);
    return block + 1;
}

void *more_memory(void *memory, size_t bytes)
{
    union block *block = bytes <= SIZE_MAX - sizeof *block
                             ? realloc((union block *)memory - 1, sizeof *block + bytes) : NULL;

    if (block == NULL)
        fail("not enough memory");
    link_in(block);
    return block + 1;
}

void give_back(void *memory)
{
    union block *block;

    if (memory == NULL)
        return;
    block = (union block *)memory - 1;
    if (block->is.older != NULL)
        block->is.older->is.newer = block->is.newer;
    if (block->is.newer != NULL)
        block->is.newer->is.older = block->is.older;
    else
        newest = block->is.older;
    free(block);
}

/* ---- Attempts ---- */

static jmp_buf *innermost, *outermost;

/* Gives back what was taken since so many pieces had been. */
static void give_back_since(uint64_t before)
{
    while (newest != NULL && newest->is.number > before)
        give_back(newest + 1);
}

bool attempt(void (*work)(void *with), void *with)
{
    jmp_buf *const outer = innermost;
    const uint64_t before = taken;
    jmp_buf here;
    bool done = false;

    if (setjmp(here) == 0) {
        innermost = &here;
        work(with);
        done = true;
    } else {
        give_back_since(before);
    }
    innermost = outer;
    return done;
}

_Noreturn void give_up(void)
{
    if (innermost != NULL)
        longjmp(*innermost, 1);
    end_command(WRONG_USE);
}

/* ---- Commands ---- */

static enum status ended_with;

enum status whole_command(enum status (*work)(void *with), void *with)
{
    const uint64_t before = taken;
    jmp_buf here;

    if (setjmp(here) == 0) {
        outermost = &here;
        ended_with = work(with);
    }
    innermost = outermost = NULL;
    give_back_since(before);
    return ended_with;
}

_Noreturn void end_command(enum status status)
{
    if (outermost == NULL)
        exit(status);
    ended_with = status;
    longjmp(*outermost, 1);
}
