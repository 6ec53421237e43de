/* The debugger's runs: the script's next events, cycles where it has none, and events that are typed. */
#include "debug_run.h"

#include "interrupt.h"
#include "plural.h"
#include "progress.h"
#include "texts.h"

#include <stdio.h>

/* A long run goes part by part, each short enough that ctrl-C is answered at once. */
enum { PART_EVENTS = 1 << 18 };

/* Cycles are what a memory that nobody has written holds. */
_Static_assert(GALHOVEIA_EVENT_CYCLE == 0, "a part of cycles is a part of zeros");
static uint8_t cycles[PART_EVENTS];

/* ---- Which events ---- */

static size_t script_rest(const struct debugger *debugger)
{
    return debugger->script.length - debugger->now.next;
}

/* Why the script has no events that come next. */
static const char *why_no_rest(const struct debugger *debugger)
{
    return debugger->script.length > 0 ? "the script is at its end" : "there is no script";
}

uint64_t events_at(const struct debugger *debugger, const struct typed *typed, size_t at)
{
    const uint64_t usual = debugger->most < CYCLES_USUAL ? debugger->most : CYCLES_USUAL;

    if (at < typed->count)
        return number_at(debugger, typed, at);
    if (script_rest(debugger) > 0)
        return script_rest(debugger);
    printf("%s, so at most %llu cycles\n", why_no_rest(debugger), (unsigned long long)usual);
    return usual;
}

/* The next events, so many at the most: the script's, and cycles after its end. */
static struct bytes part_ahead(const struct debugger *debugger, uint64_t most)
{
    size_t rest = script_rest(debugger);
    struct bytes part = rest > 0 ? (struct bytes){debugger->script.at + debugger->now.next, rest}
                                 : (struct bytes){cycles, PART_EVENTS};

    if (part.length > PART_EVENTS)
        part.length = PART_EVENTS;
    if (part.length > most)
        part.length = (size_t)most;
    return part;
}

/* Counts events that were done, the script's where it has more. */
static void pass_ahead(struct debugger *debugger, uint64_t done)
{
    if (script_rest(debugger) > 0)
        debugger->now.next += (size_t)done;
    debugger->now.done += done;
}

bool step_ahead(struct debugger *debugger, struct moment *moment)
{
    uint64_t value = 0;
    uint32_t refusal;

    moment->place = debugger->now.done;
    moment->event = *part_ahead(debugger, 1).at;
    moment->before = debugger->now.state;
    refusal = step_once(debugger->book, &debugger->now.state, moment->event, &value);
    if (refusal != GALHOVEIA_DONE) {
        end_progress();
        say_refusal("the step", refusal, value);
        return false;
    }
    moment->after = debugger->now.state;
    pass_ahead(debugger, 1);
    return true;
}

/* ---- Runs ---- */

struct outcome {
    uint64_t done, asked;
    uint32_t reason, stop;
    bool broken_off, typed;
};

void show_script_end(const struct debugger *debugger)
{
    if (debugger->script.length > 0 && script_rest(debugger) == 0)
        printf("; the script is at its end");
}

/* Says a refusal; before a word that is no instruction what was done counts. */
static void say_outcome(const struct debugger *debugger, uint32_t refusal, uint64_t value,
                        const struct outcome *outcome)
{
    if (refusal != GALHOVEIA_DONE)
        say_refusal("the run", refusal, value);
    show_done(outcome->done);
    if (refusal != GALHOVEIA_DONE)
        printf(" of %llu; stopped before a word that is no instruction", (unsigned long long)outcome->asked);
    else if (outcome->broken_off)
        printf(" of %llu; stopped by ctrl-C", (unsigned long long)outcome->asked);
    else if (outcome->reason == GALHOVEIA_AT_ADDRESS)
        printf("; stopped at $%03lX", (unsigned long)outcome->stop);
    else if (outcome->stop != GALHOVEIA_NO_STOP)
        printf("; no cycle left PC at $%03lX", (unsigned long)outcome->stop);
    else if (!outcome->typed)
        show_script_end(debugger);
    printf("\n");
    show_where(debugger);
}

/* Lets events happen until one of them leaves PC at `stop`: the typed ones, or where these are NULL so many that come
   next. */
static void run_ahead(struct debugger *debugger, const struct bytes *typed, uint64_t asked, uint32_t stop)
{
    struct outcome outcome = {.asked = asked, .reason = GALHOVEIA_AT_END, .stop = stop, .typed = typed != NULL};
    uint32_t refusal = GALHOVEIA_DONE;
    uint64_t value = 0;

    begin_progress("events done", asked);
    while (refusal == GALHOVEIA_DONE && outcome.reason == GALHOVEIA_AT_END && outcome.done < asked
           && !outcome.broken_off) {
        uint64_t left = asked - outcome.done, done = 0;
        struct bytes part = typed == NULL ? part_ahead(debugger, left)
                                          : (struct bytes){typed->at + outcome.done, (size_t)left};

        if (part.length > PART_EVENTS)
            part.length = PART_EVENTS;
        refusal = run_part(debugger->book, &debugger->now.state, part, stop, &outcome.reason, &done, &value);
        if (typed == NULL)
            pass_ahead(debugger, done);
        else
            debugger->now.done += done;
        outcome.done += done;
        progress_at(outcome.done);
        outcome.broken_off = outcome.done < asked && break_asked();
    }
    end_progress();
    say_outcome(debugger, refusal, value, &outcome);
}

void show_done(uint64_t done)
{
    printf("%llu event%s done", (unsigned long long)done, plural(done));
}

/* ---- Words ---- */

/* So many lines, for every event or for cycles alone, with the events between them passed over. */
static void show_steps(struct debugger *debugger, const struct typed *typed, bool cycles_alone)
{
    const uint64_t lines = typed->count > 0 ? number_at(debugger, typed, 0) : 1;
    struct moment moment;

    if (!debugger->headed && lines > 0)
        show_moments_head(stdout);
    debugger->headed = true;
    for (uint64_t line = 0; line < lines;) {
        if (break_asked()) {
            printf("%llu of %llu shown; stopped by ctrl-C\n", (unsigned long long)line, (unsigned long long)lines);
            return;
        }
        if (!step_ahead(debugger, &moment))
            return;
        if (cycles_alone && moment.event != GALHOVEIA_EVENT_CYCLE)
            continue;
        show_moment(stdout, debugger->book, &moment);
        if (ferror(stdout))
            fail("the output cannot be written");
        line++;
    }
}

void do_step(struct debugger *debugger, const struct typed *typed)
{
    show_steps(debugger, typed, false);
}

void do_next(struct debugger *debugger, const struct typed *typed)
{
    show_steps(debugger, typed, true);
}

void do_run_word(struct debugger *debugger, const struct typed *typed)
{
    if (typed->count == 0 && script_rest(debugger) == 0)
        fail("%s; run N lets N cycles happen", why_no_rest(debugger));
    run_ahead(debugger, NULL, typed->count > 0 ? number_at(debugger, typed, 0) : script_rest(debugger),
              GALHOVEIA_NO_STOP);
}

void do_to(struct debugger *debugger, const struct typed *typed)
{
    unsigned stop = address_at(typed, 0);

    run_ahead(debugger, NULL, events_at(debugger, typed, 1), stop);
}

/* A line with a byte that is no event is refused whole, as a script is. */
void do_events(struct debugger *debugger, const char *line)
{
    size_t most = debugger->most < TYPED_MOST ? (size_t)debugger->most : TYPED_MOST;
    struct bytes events = events_from_line(line, most);

    if (are_events(debugger, events, "the line"))
        run_ahead(debugger, &events, events.length, GALHOVEIA_NO_STOP);
    give_back(events.at);
}
