/* A script's events on a book's chip. */
#include "run.h"

#include "progress.h"

#include <stdio.h>

/* A long script is run part by part, so that there is progress to tell of. */
enum { PART_EVENTS = 1 << 22, BYTES_ALL = 256 };

/* ---- The library's run ---- */

uint32_t run_part(const struct book *book, struct state *state, struct bytes events, uint32_t stop, uint32_t *reason,
                  uint64_t *done, uint64_t *value)
{
    return galhoveia_run(book->program.at, book->program.length, state->memory, sizeof state->memory, state->record,
                         sizeof state->record, events.at, events.length, stop, reason, done, value);
}

/* Whether every byte is an event, as the library answers of each to a chip just switched on. */
static bool all_events_known(const struct book *book, struct bytes events)
{
    bool met[BYTES_ALL] = {false};
    struct state fresh;
    uint64_t value;

    for (size_t at = 0; at < events.length; at++)
        met[events.at[at]] = true;
    for (unsigned byte = 0; byte < BYTES_ALL; byte++)
        if (met[byte] && (!make_fresh(&fresh, 0, "a fresh machine")
                          || step_once(book, &fresh, (uint8_t)byte, &value) == GALHOVEIA_UNKNOWN_EVENT))
            return false;
    return true;
}

uint32_t judge_events(const struct book *book, const struct state *state, struct bytes events, uint64_t *value)
{
    struct state copy = *state;
    uint32_t reason;
    uint64_t done;

    *value = 0;
    if (all_events_known(book, events))
        return GALHOVEIA_DONE;
    return run_part(book, &copy, events, GALHOVEIA_NO_STOP, &reason, &done, value);
}

/* Part by part it is the same run, since the first part that stops is the last. A script with a byte that is no event
   is refused whole, before anything moves, so it is lent whole. */
uint32_t do_run(struct run *run, uint32_t stop, uint64_t *value)
{
    bool in_parts = run->events.length > PART_EVENTS && all_events_known(run->book, run->events);
    size_t most = in_parts ? PART_EVENTS : run->events.length;
    uint32_t refusal;

    run->end = run->start;
    run->reason = GALHOVEIA_AT_END;
    run->done = 0;
    *value = 0;
    begin_progress("events done", run->events.length);
    do {
        size_t rest = run->events.length - (size_t)run->done;
        const struct bytes part = {run->events.at + run->done, rest < most ? rest : most};
        uint64_t done = 0;

        refusal = run_part(run->book, &run->end, part, stop, &run->reason, &done, value);
        run->done += done;
        progress_at(run->done);
    } while (refusal == GALHOVEIA_DONE && run->reason == GALHOVEIA_AT_END && run->done < run->events.length);
    end_progress();
    return refusal;
}

void go_on(struct run *run)
{
    run->start = run->end;
    run->events.at += run->done;
    run->events.length -= (size_t)run->done;
    run->done = 0;
}

size_t count_done(const struct run *run, uint8_t event)
{
    size_t count = 0;

    for (uint64_t at = 0; at < run->done; at++)
        count += run->events.at[at] == event;
    return count;
}

uint32_t step_once(const struct book *book, struct state *state, uint8_t event, uint64_t *value)
{
    return galhoveia_step(book->program.at, book->program.length, state->memory, sizeof state->memory, state->record,
                          sizeof state->record, event, value);
}

/* ---- What is said of it ---- */

uint32_t run_events(struct run *run, uint32_t stop)
{
    uint64_t value;
    uint32_t refusal = do_run(run, stop, &value);

    if (refusal != GALHOVEIA_DONE)
        say_refusal("the run", refusal, value);
    if (refusal != GALHOVEIA_DONE && refusal != GALHOVEIA_UNLISTED_WORD)
        return refusal;
    printf("%llu of %zu events done; ", (unsigned long long)run->done, run->events.length);
    show_stop(run->reason, stop, &run->end);
    return refusal;
}

void show_stop(uint32_t reason, uint32_t stop, const struct state *state)
{
    if (reason == GALHOVEIA_AT_ADDRESS)
        printf("stopped at $%03lX\n", (unsigned long)stop);
    else if (reason == GALHOVEIA_AT_UNLISTED)
        printf("stopped before a word that is no instruction, at $%03X\n", two(state->record + GALHOVEIA_RECORD_PC));
    else
        printf("stopped at the script's end\n");
    show_registers(state);
}
