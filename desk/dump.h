/* The signals of a chip over the cycles of a script, as a value change dump (VCD, IEEE 1364), which GTKWave shows. */
#ifndef DESK_DUMP_H
#define DESK_DUMP_H

#include "moment.h"

enum { DUMP_SIGNALS = 17 };

/* The longest dump that is made, in bytes. */
enum { DUMP_MOST = 1 << 30 };

/* Where a signal's value stands: at a place of the record, or in a memory cell. */
struct signal {
    const char *group, *name;
    unsigned bits;
    bool in_memory;
    unsigned place;
};

struct dump {
    struct bytes text;
    size_t room;
    struct signal signals[DUMP_SIGNALS];
    unsigned values[DUMP_SIGNALS];
    uint64_t first_cycle, cycles, time; /* cycles done before the first event and so far; the last time told */
    uint64_t events;
};

/* Begins with the signals of a state that so many cycles led to. The caller gives back the text. */
void begin_dump(struct dump *dump, const struct book *book, const struct state *start, uint64_t cycles);

void dump_moment(struct dump *dump, const struct moment *moment);

/* Ends the dump, writes it as a file and says what is in it. */
void write_dump(const char *path, struct dump *dump, bool force);

#endif
