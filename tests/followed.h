/* What the parts of followed share: a script's events as the second emulator has them, and what is held to them. */
#ifndef TESTS_FOLLOWED_H
#define TESTS_FOLLOWED_H

#include "support.h"

#include "../second/second.h"

/* A whole file, with a 0 behind its last byte; or the test ends. */
struct text {
    char *at;
    size_t length;
};

struct text read_whole(const char *path);
void write_whole(const char *path, const uint8_t *bytes, size_t length);

/* An event of the script, by the second emulator. */
struct followed {
    uint64_t place; /* counted from 0 */
    uint8_t event;
    uint64_t cycles; /* done so far, this one among them */
    struct second_machine before, after;
};

/* ---- The value change dump (followed_dump.c) ---- */

/* Opens a dump whose first event finds this machine after so many cycles, and holds all before the events against it.
   `high` and `low` are the cells of the level's digits. */
void open_dump(const char *path, const struct second_machine *start, uint64_t cycles, unsigned high, unsigned low);

/* Holds what the dump has next against an event. */
void hold_dump(const struct followed *followed);

/* After the last event, with so many cycles done. */
void close_dump(uint64_t cycles);

/* ---- Drawn books, states and scripts (followed_draw.c) ---- */

/* Writes NAME.book, NAME.state and NAME.script, the script of so many events as bytes; wiring and level are those of a
   book. */
void draw(uint64_t seed, size_t events, const char *name, const char *book);

#endif
