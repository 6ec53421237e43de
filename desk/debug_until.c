/* The debugger's until: event by event until a cell changes, and what changed it. */
#include "debug_run.h"
#include "interrupt.h"
#include "progress.h"
#include "texts.h"
#include "watch.h"

#include <stdio.h>
#include <string.h>

/* What is waited for: a change of watched cells, which have lists of writers; or, where none is watched, of one bit or
   all bits of a register. */
struct awaited {
    struct watch watch;
    struct asked of;
};

static unsigned bits_of(struct asked asked)
{
    return asked.bit == BITS ? (1u << BITS) - 1 : 1u << asked.bit;
}

/* The pins that an event turned over, where the cell is a port's. */
static unsigned pins_turned(const struct moment *moment, unsigned cell)
{
    if (cell < PORT_A || cell > PORT_D)
        return 0;
    return moment->before.record[GALHOVEIA_RECORD_PINS + cell - PORT_A]
           ^ moment->after.record[GALHOVEIA_RECORD_PINS + cell - PORT_A];
}

static bool is_come(const struct awaited *awaited, const struct moment *moment)
{
    unsigned cell = awaited->of.cell;

    if (awaited->watch.count > 0)
        return changes_watched(&awaited->watch, moment);
    return ((moment->before.memory[cell] ^ moment->after.memory[cell]) & bits_of(awaited->of)) != 0
           || (pins_turned(moment, cell) & bits_of(awaited->of)) != 0;
}

/* ---- What changed a register ---- */

/* What the cell would be after the same cycle with NOP in place of the instruction, so without what that one does. */
static unsigned without_instruction(const struct book *book, const struct moment *moment, unsigned cell)
{
    unsigned address = two(moment->before.record + GALHOVEIA_RECORD_PC);
    uint8_t program[GALHOVEIA_PROGRAM_BYTES];
    const struct book changed = {.program = {program, sizeof program}};
    struct state state = moment->before;
    uint64_t value;

    memcpy(program, book->program.at, sizeof program);
    program[2 * address] = NOP_WORD >> 8;
    program[2 * address + 1] = NOP_WORD & 0xFF;
    step_once(&changed, &state, moment->event, &value);
    return state.memory[cell];
}

/* A read of program data that was under way fills these cells, whatever the instruction writes there. */
static bool is_filled(const struct moment *moment, unsigned cell)
{
    return moment->before.record[GALHOVEIA_RECORD_PENDING] && cell >= DATA_READ && cell <= DATA_READ_END;
}

/* Of the bits that were waited for. */
static void show_executed(const struct book *book, const struct moment *moment, struct asked of)
{
    unsigned bits = bits_of(of), idle = without_instruction(book, moment, of.cell) & bits;
    const char *line = book->lines.at[two(moment->before.record + GALHOVEIA_RECORD_PC)];

    if (is_filled(moment, of.cell))
        printf("a read of program data, not by  %s\n", line);
    else if (idle == (moment->after.memory[of.cell] & bits))
        printf("the cycle itself, not by  %s\n", line);
    else if (idle == (moment->before.memory[of.cell] & bits))
        printf("%s\n", line);
    else
        printf("%s  and by the cycle itself\n", line);
}

/* An interrupt itself changes the enable flags alone. */
static void show_interrupted(const struct moment *moment, unsigned cell)
{
    unsigned to = two(moment->after.record + GALHOVEIA_RECORD_PC);

    if (cell == INTERRUPTS_ENABLED)
        printf("an interrupt, taken to $%03X\n", to);
    else
        printf("%s, in which an interrupt was taken to $%03X\n",
               is_filled(moment, cell) ? "a read of program data in a cycle" : "the cycle itself", to);
}

static void show_cause(const struct book *book, const struct moment *moment, struct asked of)
{
    const unsigned cell = of.cell;
    char word[EVENT_WORD_ROOM];

    if (pins_turned(moment, cell) != 0) {
        const uint8_t *before = moment->before.record + GALHOVEIA_RECORD_PINS + cell - PORT_A;
        const uint8_t *after = moment->after.record + GALHOVEIA_RECORD_PINS + cell - PORT_A;

        printf("  event %llu: pins %c %X -> %X  by  the event %s\n", (unsigned long long)moment->place,
               'A' + (int)(cell - PORT_A), *before, *after, event_word(moment->event, word));
        return;
    }
    show_difference(moment->place, cell, moment->before.memory[cell], moment->after.memory[cell]);
    switch (work_of(moment->event, &moment->before, &moment->after)) {
    case EXECUTES:
        show_executed(book, moment, of);
        break;
    case INTERRUPTS:
        show_interrupted(moment, cell);
        break;
    case SLEEPS:
        printf("%s, asleep\n", is_filled(moment, cell) ? "a read of program data" : "the cycle itself");
        break;
    case HAPPENS:
        printf("the event %s\n", event_word(moment->event, word));
        break;
    }
}

/* ---- The run ---- */

static void show_come(const struct debugger *debugger, struct awaited *awaited, const struct moment *moment)
{
    end_progress();
    if (awaited->watch.count == 0)
        show_cause(debugger->book, moment, awaited->of);
    else if (!find_change(&awaited->watch, debugger->book, moment, show_change, NULL))
        ask_report();
    show_where(debugger);
}

static void run_until(struct debugger *debugger, struct awaited *awaited, uint64_t most)
{
    struct moment moment;
    uint64_t done = 0;

    begin_progress("events looked at", most);
    while (done < most && !break_asked()) {
        if (!step_ahead(debugger, &moment))
            break;
        progress_at(++done);
        if (is_come(awaited, &moment)) {
            show_come(debugger, awaited, &moment);
            return;
        }
    }
    end_progress();
    show_done(done);
    printf(" without a change");
    if (done < most && break_asked())
        printf("; stopped by ctrl-C");
    else
        show_script_end(debugger);
    printf("\n");
    show_where(debugger);
}

/* ---- What is waited for ---- */

/* Says of which watched cells no change can come. Answers whether one can of any. */
static bool can_come(const struct watch *watch)
{
    bool can = false;

    for (size_t at = 0; at < watch->count; at++) {
        const struct watched *watched = &watch->cells[at];

        can = can || watched->writers > 0;
        if (watched->writers == 0) {
            show_head(watched->cell, watched->meaning, 0);
            printf("\n");
        }
    }
    return can;
}

/* Begins to wait for a cell. Answers whether a change of it can come; where it cannot, that is said. */
static bool await_cell(const struct debugger *debugger, struct awaited *awaited)
{
    const struct book *book = debugger->book;
    unsigned cell = awaited->of.cell;
    struct writers writers;
    uint64_t value;

    if (list_writers(book, cell, &writers, &value) != GALHOVEIA_ASKED_CELL)
        return watch_cell(&awaited->watch, book, cell, cell_meaning(book, cell)) && can_come(&awaited->watch);
    if ((bits_kept(debugger, cell) & bits_of(awaited->of)) == 0) {
        printf("cell $%03X keeps nothing in memory, so it never changes%s\n", cell,
               cell == TIMER0_LOW || cell == TIMER0_HIGH ? "; registers tells Timer0's counter" : "");
        return false;
    }
    return true;
}

void do_until(struct debugger *debugger, const struct typed *typed)
{
    struct awaited awaited = {.watch = {.count = 0}};
    bool can;

    if (typed->count > 1)
        number_at(debugger, typed, 1); /* before anything is said of the cell */
    if (is_argument(typed, 0, "level")) {
        can = watch_level(&awaited.watch, debugger->book) && can_come(&awaited.watch);
    } else {
        awaited.of = cell_at(typed, 0);
        can = await_cell(debugger, &awaited);
    }
    if (can)
        run_until(debugger, &awaited, events_at(debugger, typed, 1));
}
