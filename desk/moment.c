/* One event, seen. */
#include "moment.h"

#include "names.h"
#include "progress.h"
#include "texts.h"

#include <string.h>

enum { PORTS = 4 };

/* A cycle that finds the chip asleep wakes it to take an interrupt, and for nothing else. */
enum work work_of(uint8_t event, const struct state *before, const struct state *after)
{
    if (event != GALHOVEIA_EVENT_CYCLE)
        return HAPPENS;
    if (before->record[GALHOVEIA_RECORD_MODE] == GALHOVEIA_RUNNING)
        return before->memory[INTERRUPTS_ENABLED] & before->memory[INTERRUPTS_REQUESTED] ? INTERRUPTS : EXECUTES;
    return after->record[GALHOVEIA_RECORD_MODE] == GALHOVEIA_RUNNING ? INTERRUPTS : SLEEPS;
}

/* ---- A line ---- */

/* A line of the listing in brackets; the columns of a mode with the blanks behind it; the blanks between changes; and
   the cells that are first looked at together, since most events change few. */
enum { AT_ROOM = GALHOVEIA_LINE_BYTES_MOST + 2, MODE_COLUMNS = 9, BETWEEN = 2, CELLS_TOGETHER = 64 };

void show_moments_head(FILE *to)
{
    fprintf(to, "   event  what       at  word instruction  PC  AC CY  mode     changes, before -> after\n");
}

/* The blanks that are due before what comes next, if anything does, so that no line ends in them. */
static void show_blanks(FILE *to, int *due)
{
    fprintf(to, "%*s", *due, "");
    *due = BETWEEN;
}

static void show_work(FILE *to, enum work work, const struct state *after, int *due)
{
    if (work != INTERRUPTS && work != SLEEPS)
        return;
    show_blanks(to, due);
    if (work == INTERRUPTS)
        fprintf(to, "interrupt to $%03X", two(after->record + GALHOVEIA_RECORD_PC));
    else
        fprintf(to, "asleep");
}

static void show_differences(FILE *to, const struct moment *moment, int *due)
{
    const uint8_t *before = moment->before.memory, *after = moment->after.memory;
    const uint8_t *pins_before = moment->before.record + GALHOVEIA_RECORD_PINS;
    const uint8_t *pins_after = moment->after.record + GALHOVEIA_RECORD_PINS;

    for (unsigned from = 0; from < GALHOVEIA_MEMORY_BYTES; from += CELLS_TOGETHER) {
        if (memcmp(before + from, after + from, CELLS_TOGETHER) == 0)
            continue;
        for (unsigned cell = from; cell < from + CELLS_TOGETHER; cell++)
            if (before[cell] != after[cell]) {
                show_blanks(to, due);
                fprintf(to, "$%03X %X -> %X", cell, before[cell], after[cell]);
            }
    }
    for (int port = 0; port < PORTS; port++)
        if (pins_before[port] != pins_after[port]) {
            show_blanks(to, due);
            fprintf(to, "pins %c %X -> %X", 'A' + port, pins_before[port], pins_after[port]);
        }
}

void show_moment(FILE *to, const struct book *book, const struct moment *moment)
{
    static const char *const modes[] = {"running", "HALT", "STOP"};
    const enum work work = work_of(moment->event, &moment->before, &moment->after);
    const uint8_t *record = moment->after.record;
    const char *mode = modes[record[GALHOVEIA_RECORD_MODE]];
    char word[EVENT_WORD_ROOM], at[AT_ROOM];
    int due = MODE_COLUMNS - (int)strlen(mode);

    snprintf(at, sizeof at, work == EXECUTES ? " %s" : "(%s)",
             book->lines.at[two(moment->before.record + GALHOVEIA_RECORD_PC)]);
    fprintf(to, "%8llu  %-8s  %-22s %03X  %X  %u  %s", (unsigned long long)moment->place,
            event_word(moment->event, word), at, two(record + GALHOVEIA_RECORD_PC), record[GALHOVEIA_RECORD_AC],
            record[GALHOVEIA_RECORD_CY], mode);
    show_work(to, work, &moment->after, &due);
    show_differences(to, moment, &due);
    fprintf(to, "\n");
}

/* ---- A run's events ---- */

bool see_events(const struct run *run, uint64_t first, seer *see, void *with)
{
    struct moment moment = {.after = run->start};
    bool faultless = true;

    for (uint64_t done = 0; done < run->done; done++) {
        uint64_t value = 0;
        uint32_t refusal;

        moment.place = first + done;
        moment.event = run->events.at[done];
        moment.before = moment.after;
        refusal = step_once(run->book, &moment.after, moment.event, &value);
        progress_at(done);
        if (refusal != GALHOVEIA_DONE) {
            say_refusal("a single step", refusal, value);
            return say_fault("event %llu was done by the run", (unsigned long long)moment.place);
        }
        faultless = see(with, &moment) && faultless;
    }
    if (memcmp(&moment.after, &run->end, sizeof moment.after) != 0)
        return say_fault("single steps and the run come to different states");
    return faultless;
}
