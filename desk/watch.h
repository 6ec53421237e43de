/* Cells watched while a script's events happen: which instruction changed each, and when. Every change is held against
   the cell's list of writers. */
#ifndef DESK_WATCH_H
#define DESK_WATCH_H

#include "moment.h"

struct watched {
    uint32_t cell;
    const char *meaning;
    size_t writers;                    /* how many the cell's list of writers has */
    bool listed[GALHOVEIA_WORDS];      /* for each address, whether it is in the list */
    uint64_t changed[GALHOVEIA_WORDS]; /* how often the instruction there, which the list has, changed the cell */
    uint64_t changes;
};

/* Both digits of the level, and one cell more. */
enum { WATCHED_MOST = DIGITS + 1 };

struct watch {
    struct watched cells[WATCHED_MOST];
    size_t count;
};

/* Each adds what is not watched yet. They answer whether it can be watched; a refusal is said. */
bool watch_level(struct watch *watch, const struct book *book);
bool watch_cell(struct watch *watch, const struct book *book, uint32_t cell, const char *meaning);

/* One change: the event in which it came, counted from 0, the cell before and after it, and the address at which the
   machine stood. */
struct cell_change {
    const struct watched *watched;
    uint64_t place;
    uint8_t before, after;
    unsigned address;
};

typedef void tell_change(void *with, const struct book *book, const struct cell_change *change);

/* Whether an event changed a watched cell. */
bool changes_watched(const struct watch *watch, const struct moment *moment);

/* Tells each change of a watched cell by an event, and counts it. Answers false for a fault, which is said: a change by
   no instruction, or by one that the list of writers does not have. */
bool find_change(struct watch *watch, const struct book *book, const struct moment *moment, tell_change *tell,
                 void *with);

/* The same of all events that a run has done, which happen again one by one from the state in which it began. Another
   end than the run's is a fault too. */
bool find_changes(struct watch *watch, const struct run *run, tell_change *tell, void *with);

/* The beginning of a line that tells a change: event, cell, before and after. And the whole line. */
void show_difference(uint64_t place, uint32_t cell, unsigned before, unsigned after);
tell_change show_change;

/* Shows each change that a run made, and which of a cell's writers made none; after a fault a report is asked for. */
bool show_changes(struct watch *watch, const struct run *run);

#endif
