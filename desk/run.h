/* A script's events on a book's chip. */
#ifndef DESK_RUN_H
#define DESK_RUN_H

#include "panel.h"

/* A run, with the states before and after the events that were done. */
struct run {
    const struct book *book;
    struct bytes events;
    uint64_t done;
    uint32_t reason;
    struct state start, end;
};

/* Lets the run's events happen to the chip, from its start. Answers 0 or the refusal, which is not said. */
uint32_t do_run(struct run *run, uint32_t stop, uint64_t *value);

/* The same, and says how that ended. The refusal is said; a run before an unlisted word is refused, but what it did
   counts. */
uint32_t run_events(struct run *run, uint32_t stop);

/* Makes of a run that has stopped at an address the run of the events that are left, from where it ended. */
void go_on(struct run *run);

/* Says why a run stopped, as the rest of a line, and what the registers then are. */
void show_stop(uint32_t reason, uint32_t stop, const struct state *state);

/* Lets events happen to a state by one call of the library, as galhoveia_run has it. Answers 0 or the refusal, which is
   not said. */
uint32_t run_part(const struct book *book, struct state *state, struct bytes events, uint32_t stop, uint32_t *reason,
                  uint64_t *done, uint64_t *value);

/* Judges events before any of them happens. Answers 0 where every byte is an event, so that any part of them runs as it
   would in the whole; else what the library answers to all of them, of which it then lets none happen. The refusal is
   not said. */
uint32_t judge_events(const struct book *book, const struct state *state, struct bytes events, uint64_t *value);

/* How many of the events that a run has done are this one. */
size_t count_done(const struct run *run, uint8_t event);

/* Lets one event happen. Answers 0 or the refusal, which is not said. */
uint32_t step_once(const struct book *book, struct state *state, uint8_t event, uint64_t *value);

#endif
