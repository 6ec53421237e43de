/* One event, seen: what it was, where the chip stood, and what it changed. */
#ifndef DESK_MOMENT_H
#define DESK_MOMENT_H

#include "run.h"

/* What an event comes to: a cycle executes the instruction at PC, or takes an enabled interrupt that is requested, or
   passes asleep; any other event is its own work. */
enum work { EXECUTES, INTERRUPTS, SLEEPS, HAPPENS };

enum work work_of(uint8_t event, const struct state *before, const struct state *after);

struct moment {
    uint64_t place; /* of the event, counted from 0 */
    uint8_t event;
    struct state before, after;
};

/* A line for a moment: the event's number and word; the listing's line at PC as it was before, in brackets where the
   event did not execute it; PC, AC, CY and mode after it; what a cycle came to that executed nothing; and each cell and
   pin that was changed, before and after. And a line that heads them. */
void show_moments_head(FILE *to);
void show_moment(FILE *to, const struct book *book, const struct moment *moment);

/* Lets the events that a run has done happen again one by one, from its start, and each be seen; `first` is the place
   of the first. Answers false for a fault, which is said where it is found here: a refused event, or another end than
   the run's. Where `see` answers false for one that it found, the others are still seen. */
typedef bool seer(void *with, const struct moment *moment);

bool see_events(const struct run *run, uint64_t first, seer *see, void *with);

#endif
