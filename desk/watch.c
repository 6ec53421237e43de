/* Cells watched while a script's events happen. */
#include "watch.h"

#include "plural.h"
#include "progress.h"

#include <stdio.h>

/* ---- What is watched ---- */

bool watch_cell(struct watch *watch, const struct book *book, uint32_t cell, const char *meaning)
{
    struct watched *added;
    struct writers writers;

    for (size_t at = 0; at < watch->count; at++)
        if (watch->cells[at].cell == cell)
            return true;
    if (!ask_writers(book, cell, &writers))
        return false;
    added = &watch->cells[watch->count++];
    *added = (struct watched){.cell = cell, .meaning = meaning, .writers = writers.count};
    for (size_t at = 0; at < writers.count; at++)
        added->listed[writers.address[at]] = true;
    return true;
}

bool watch_level(struct watch *watch, const struct book *book)
{
    for (enum digit digit = HIGH; digit < DIGITS; digit++)
        if (!watch_cell(watch, book, level_cell(book, digit), digit_meaning[digit]))
            return false;
    return true;
}

/* ---- One event ---- */

static bool is_changed(const struct moment *moment, uint32_t cell)
{
    return moment->before.memory[cell] != moment->after.memory[cell];
}

bool changes_watched(const struct watch *watch, const struct moment *moment)
{
    for (size_t at = 0; at < watch->count; at++)
        if (is_changed(moment, watch->cells[at].cell))
            return true;
    return false;
}

/* Counts a change that an instruction of the cell's list made. Any other is a fault. */
static bool count_change(struct watched *watched, const struct cell_change *change, bool executed)
{
    unsigned long long place = change->place;

    watched->changes++;
    if (!executed)
        return say_fault("event %llu executes no instruction and changed cell $%03lX", place,
                         (unsigned long)watched->cell);
    if (!watched->listed[change->address])
        return say_fault("event %llu changed cell $%03lX at $%03X, which its list of writers does not have", place,
                         (unsigned long)watched->cell, change->address);
    watched->changed[change->address]++;
    return true;
}

bool find_change(struct watch *watch, const struct book *book, const struct moment *moment, tell_change *tell,
                 void *with)
{
    bool executed = work_of(moment->event, &moment->before, &moment->after) == EXECUTES;
    bool faultless = true;

    for (size_t at = 0; at < watch->count; at++) {
        struct watched *watched = &watch->cells[at];
        const struct cell_change change = {watched, moment->place, moment->before.memory[watched->cell],
                                           moment->after.memory[watched->cell],
                                           two(moment->before.record + GALHOVEIA_RECORD_PC)};

        if (!is_changed(moment, watched->cell))
            continue;
        tell(with, book, &change);
        faultless = count_change(watched, &change, executed) && faultless;
    }
    return faultless;
}

/* ---- A run's events ---- */

struct watching {
    struct watch *watch;
    const struct book *book;
    tell_change *tell;
    void *with;
};

static bool see_change(void *with, const struct moment *moment)
{
    const struct watching *watching = with;

    return find_change(watching->watch, watching->book, moment, watching->tell, watching->with);
}

bool find_changes(struct watch *watch, const struct run *run, tell_change *tell, void *with)
{
    struct watching watching = {watch, run->book, tell, with};
    bool faultless;

    begin_progress("events looked at", run->done);
    faultless = see_events(run, 0, see_change, &watching);
    end_progress();
    return faultless;
}

/* ---- What is shown of them ---- */

void show_difference(uint64_t place, uint32_t cell, unsigned before, unsigned after)
{
    clear_progress();
    printf("  event %llu: $%03lX %X -> %X  by  ", (unsigned long long)place, (unsigned long)cell, before, after);
}

void show_change(void *with, const struct book *book, const struct cell_change *change)
{
    (void)with;
    show_difference(change->place, change->watched->cell, change->before, change->after);
    if (change->watched->listed[change->address])
        show_writer(book, change->address);
    else
        show_instruction(book, change->address);
}

static void show_writers_seen(const struct watched *watched, const struct book *book)
{
    size_t changed = 0;

    for (unsigned address = 0; address < GALHOVEIA_WORDS; address++)
        changed += watched->changed[address] > 0;
    printf("cell $%03lX%s: %llu change%s; of %zu instruction%s that can change it %zu did%s\n",
           (unsigned long)watched->cell, watched->meaning, (unsigned long long)watched->changes,
           plural(watched->changes), watched->writers, plural(watched->writers), changed,
           changed < watched->writers ? ", and these never:" : "");
    for (unsigned address = 0; address < GALHOVEIA_WORDS; address++)
        if (watched->listed[address] && watched->changed[address] == 0) {
            printf("  ");
            show_writer(book, address);
        }
}

bool show_changes(struct watch *watch, const struct run *run)
{
    bool faultless;

    printf("changes, with events counted from 0:\n");
    faultless = find_changes(watch, run, show_change, NULL);
    for (size_t at = 0; at < watch->count; at++)
        show_writers_seen(&watch->cells[at], run->book);
    return faultless || ask_report();
}
