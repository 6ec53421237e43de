/* A line for each event of a script, and the same as a value change dump. */
#define _POSIX_C_SOURCE 200809L
#include "trace.h"

#include "dump.h"
#include "plural.h"
#include "progress.h"
#include "texts.h"

#include <stdio.h>
#include <unistd.h>

/* What is asked for. */
struct wanted {
    uint32_t from, count;
    bool counted, lines, force;
    const char *vcd;
};

/* The events before those that are shown, and these: each first by the library's quick run. */
struct trace {
    const struct wanted *wanted;
    struct run whole, lead, shown;
    struct dump dump;
};

/* ---- The events ---- */

static bool see(void *with, const struct moment *moment)
{
    struct trace *trace = with;

    if (trace->wanted->lines)
        show_moment(stdout, trace->whole.book, moment);
    if (ferror(stdout)) { /* as the command's end says */
        end_progress();
        end_command(WRONG_USE);
    }
    if (trace->wanted->vcd != NULL)
        dump_moment(&trace->dump, moment);
    return true;
}

/* Shows the events that the run has done, one by one. Answers false for a fault, which is said. */
static bool show_events(struct trace *trace)
{
    const struct wanted *wanted = trace->wanted;
    bool faultless;

    if (wanted->lines)
        show_moments_head(stdout);
    if (wanted->vcd != NULL)
        begin_dump(&trace->dump, trace->whole.book, &trace->shown.start,
                   count_done(&trace->lead, GALHOVEIA_EVENT_CYCLE));
    if (!wanted->lines || !isatty(STDOUT_FILENO)) /* lines on a terminal are seen to move */
        begin_progress("events traced", trace->shown.done);
    faultless = see_events(&trace->shown, wanted->from, see, trace);
    end_progress();
    if (faultless && wanted->vcd != NULL)
        write_dump(wanted->vcd, &trace->dump, wanted->force);
    give_back(trace->dump.text.at);
    return faultless || ask_report();
}

/* ---- What is said at the end ---- */

static void say_refused_event(uint64_t place, uint32_t refusal, uint64_t value)
{
    char event[32];

    snprintf(event, sizeof event, "event %llu", (unsigned long long)place);
    say_refusal(event, refusal, value);
}

static void show_end(const struct trace *trace)
{
    const struct wanted *wanted = trace->wanted;
    const struct run *shown = &trace->shown, *lead = &trace->lead;
    const unsigned long long done = lead->done + shown->done;
    const uint32_t reason = lead->reason == GALHOVEIA_AT_END ? shown->reason : lead->reason;

    printf("%llu of %zu events done, ", done, trace->whole.events.length);
    if (lead->done < lead->events.length)
        printf("none shown, since event %lu was not come to", (unsigned long)wanted->from);
    else if (shown->done == 0)
        printf("none %s", wanted->lines ? "shown" : "dumped");
    else
        printf("%llu %s, %lu to %llu", (unsigned long long)shown->done, wanted->lines ? "shown" : "dumped",
               (unsigned long)wanted->from, done - 1);
    if (wanted->counted && shown->done < wanted->count)
        printf(", fewer than the %lu asked for", (unsigned long)wanted->count);
    printf("; ");
    if (reason == GALHOVEIA_AT_END && done < trace->whole.events.length) {
        printf("stopped after the events asked for\n");
        show_registers(&shown->end);
    } else {
        show_stop(reason, GALHOVEIA_NO_STOP, &shown->end);
    }
}

/* ---- The trace ---- */

static enum status trace_events(struct trace *trace)
{
    struct run *lead = &trace->lead, *shown = &trace->shown;
    uint64_t value;
    uint32_t refusal = judge_events(trace->whole.book, &trace->whole.start, trace->whole.events, &value);
    bool faultless = true;

    if (refusal == GALHOVEIA_DONE)
        refusal = do_run(lead, GALHOVEIA_NO_STOP, &value);
    if (refusal != GALHOVEIA_DONE && refusal != GALHOVEIA_UNLISTED_WORD) {
        say_refusal("the trace", refusal, value);
        return REFUSED;
    }
    shown->start = shown->end = lead->end;
    if (refusal == GALHOVEIA_DONE) {
        refusal = do_run(shown, GALHOVEIA_NO_STOP, &value);
        faultless = show_events(trace);
    }
    if (refusal != GALHOVEIA_DONE)
        say_refused_event(lead->done + shown->done, refusal, value);
    show_end(trace);
    if (!faultless)
        return FAULT;
    return refusal == GALHOVEIA_DONE ? DONE : REFUSED;
}

/* Cuts the script in two: the events before the first that is shown, and those to be shown. */
static void cut_script(struct trace *trace, const char *path)
{
    const struct wanted *wanted = trace->wanted;
    const struct bytes *events = &trace->whole.events;
    size_t rest;

    if (wanted->from > 0 && wanted->from >= events->length)
        fail("%s has %zu event%s, counted from 0, so there is no event %lu to begin with", path, events->length,
             plural(events->length), (unsigned long)wanted->from);
    rest = events->length - wanted->from;
    trace->lead.events = (struct bytes){events->at, wanted->from};
    trace->shown.events = (struct bytes){events->at + wanted->from,
                                         wanted->counted && wanted->count < rest ? wanted->count : rest};
}

enum status work_trace(const struct command *command, int count, char **words)
{
    const char *others[2], *from = NULL, *counted = NULL;
    bool raw_script = false, lines = false;
    struct course course = {NULL, NULL, NULL};
    struct wanted wanted = {.vcd = NULL};
    const struct option known[] = {{"--from", &from, NULL},          {"--count", &counted, NULL},
                                   {"--state", &course.state, NULL}, {"--options", &course.options, NULL},
                                   {"--vcd", &wanted.vcd, NULL},     {"--force", NULL, &wanted.force},
                                   {"--lines", NULL, &lines},        {"--raw-script", NULL, &raw_script},
                                   {NULL, NULL, NULL}};
    struct book book;
    const struct run none = {.book = &book, .reason = GALHOVEIA_AT_END};
    struct trace trace = {.wanted = &wanted, .whole = none, .lead = none, .shown = none};
    enum status status = REFUSED;

    take_words(command, count, words, known, others, 2);
    (void)stop_from(command, &course);
    wanted.from = from != NULL ? decimal_from(command, from, UINT32_MAX) : 0;
    wanted.counted = counted != NULL;
    wanted.count = counted != NULL ? decimal_from(command, counted, UINT32_MAX) : 0;
    wanted.lines = lines || wanted.vcd == NULL;
    if (wanted.vcd == NULL && (wanted.force || lines))
        wrong_use(command, wanted.force ? "--force is for the file of" : "lines are shown anyway without", "--vcd");
    if (wanted.vcd != NULL)
        may_write(wanted.vcd, wanted.force);
    for (int at = 0; at < 2; at++)
        keep_input(wanted.vcd, others[at]);
    keep_input(wanted.vcd, course.state);
    trace.whole.events = read_script(others[1], raw_script, script_from_text);
    cut_script(&trace, others[1]);
    if (start_from(command, &course, "a fresh machine", &trace.whole.start) && read_book(others[0], &book)) {
        trace.lead.start = trace.whole.start;
        status = trace_events(&trace);
        give_back(book.file.at);
    }
    give_back(trace.whole.events.at);
    return status;
}
