/* The events that come next in a session. */
#ifndef DESK_DEBUG_RUN_H
#define DESK_DEBUG_RUN_H

#include "debug_words.h"
#include "moment.h"

/* As many events as a word asks for: its argument, or the script's rest, or where there is none so many cycles, which
   is told. */
enum { CYCLES_USUAL = 1000000 };

uint64_t events_at(const struct debugger *debugger, const struct typed *typed, size_t at);

/* Lets the next event happen, the script's or a cycle. Answers whether it did; a refusal is said. */
bool step_ahead(struct debugger *debugger, struct moment *moment);

/* The beginning of a line that tells how many events were done, and its end where the script has no more. */
void show_done(uint64_t done);
void show_script_end(const struct debugger *debugger);

#endif
