/* What single steps change, over the example dispatcher and over programs and machines at random: each step that leaves
   a data, display or scan cell with another value is a cycle that executes an instruction, at an address that
   galhoveia's list of the cell's writers has. */
#include "compare.h"
#include "support.h"

#include "../desk/galhoveia.h"

#include <inttypes.h>
#include <stdio.h>
#include <stdlib.h>
#include <string.h>

enum { OF_ALL_EVENTS = 10, CHANGES_ONE_IN = 40, MACHINES_ON_ONE_PROGRAM = 400, SCRIPT_LENGTH = 50, NUDGED_ONE_IN = 50 };
enum { FIRST = 0x020, END = 0x36E, CODES = 32, DECIMAL_CODE = 25 };

static uint8_t program[PROGRAM_BYTES];
static struct machine machine;

/* ---- The lists of the program, each asked for once ---- */

static unsigned cell_stride;
static bool asked[MEMORY_BYTES], listed[MEMORY_BYTES][WORDS];
static uint64_t lists;

static void forget_lists(void)
{
    memset(asked, 0, sizeof asked);
}

static bool is_listed(unsigned cell, unsigned address)
{
    if (!asked[cell]) {
        static uint8_t addresses[PROGRAM_BYTES];
        uint64_t count = 0, value = 99;
        uint32_t answer = galhoveia_list(program, sizeof program, cell, addresses, sizeof addresses, &count, &value);

        check(answer == 0 && value == 0 && count <= sizeof addresses, "list of $%03X: answer %u", cell, answer);
        memset(listed[cell], 0, sizeof listed[cell]);
        for (size_t at = 0; at < count; at += 2)
            listed[cell][two(addresses + at)] = true;
        asked[cell] = true;
        lists++;
    }
    return listed[cell][address];
}

/* ---- What was seen ---- */

enum seen { EVENTS, NOT_EXECUTING, NO_CYCLES, CHANGES, DATA, DISPLAY, SCAN, THROUGH_POINTER, BY_DAA, BY_DAS, SEEN };

static const char *const seen_name[SEEN] = {
    "events by single steps", "  cycles asleep or interrupted", "  pins, pulses, sound clocks, resets",
    "changes of cells", "  data", "  display", "  scan", "  through $00F", "  by DAA", "  by DAS"};

static uint64_t seen[SEEN];
static uint64_t changed_by_code[CODES]; /* by bits 15-11 of the word */

/* The codes that have a form that writes: the memory forms, ADIM, SBIM, EORIM, ORIM, ANDIM, LDI, and DAA with DAS. */
static bool code_writes(unsigned code)
{
    return code < 8 || code == 9 || (code >= 11 && code < 16) || code == DECIMAL_CODE;
}

static void count_change(unsigned cell, uint16_t word)
{
    unsigned code = word >> 11;

    seen[CHANGES]++;
    seen[is_display(cell) ? DISPLAY : cell < 0x300 ? DATA : SCAN]++;
    seen[THROUGH_POINTER] += (word & (code < 8 ? 0x3FF : 0x7F)) == 0x00F;
    if (code == DECIMAL_CODE)
        seen[word < 0xCD00 ? BY_DAA : BY_DAS]++;
    changed_by_code[code]++;
}

/* ---- One event ---- */

static bool executes(const struct machine *before, uint8_t event)
{
    return event == CYCLE && before->record[R_MODE] == RUNNING && !(before->memory[0x000] & before->memory[0x001]);
}

static void changes_are_listed(const struct machine *before, uint8_t event)
{
    unsigned pc = two(before->record + R_PC);

    if (memcmp(before->memory + FIRST, machine.memory + FIRST, END - FIRST) == 0)
        return;
    for (unsigned cell = FIRST; cell < END; cell++) {
        if (before->memory[cell] == machine.memory[cell])
            continue;
        check(executes(before, event), "event $%02X at $%03X changes $%03X and executes nothing", event, pc, cell);
        if (cell % cell_stride == 0)
            check(is_askable(cell) && is_listed(cell, pc),
                  "the word $%04X at $%03X changes $%03X and is not in its list", two(program + 2 * pc), pc, cell);
        count_change(cell, (uint16_t)two(program + 2 * pc));
    }
}

/* Answers whether the event was done: an unlisted word is in the way of a cycle. */
static bool step(uint8_t event)
{
    struct machine before = machine;
    uint64_t value = 99;
    uint32_t answer = galhoveia_step(program, sizeof program, machine.memory, MEMORY_BYTES, machine.record,
                                     RECORD_BYTES, event, &value);

    check(answer == 0 || (answer == 6 && executes(&before, event)), "event $%02X: answer %u with %" PRIu64, event,
          answer, value);
    changes_are_listed(&before, event);
    if (answer != 0)
        return false;
    seen[EVENTS]++;
    seen[NO_CYCLES] += event != CYCLE;
    seen[NOT_EXECUTING] += event == CYCLE && !executes(&before, event);
    return true;
}

static void cycles(unsigned count)
{
    for (unsigned at = 0; at < count; at++)
        (void)step(CYCLE);
}

/* ---- The example ---- */

static void read_program(const char *path)
{
    static uint8_t book[GALHOVEIA_BOOK_BYTES_MOST + 1];
    uint64_t at = 0, length = 0, wiring, wiring_length, level, level_length, value;
    FILE *file = fopen(path, "rb");
    size_t book_length = file == NULL ? 0 : fread(book, 1, sizeof book, file);

    if (galhoveia_book_read(book, book_length, &at, &length, &wiring, &wiring_length, &level, &level_length, &value)) {
        printf("%s is no good book\n", path);
        exit(EXIT_FAILURE);
    }
    fclose(file);
    memcpy(program, book + at, sizeof program);
}

/* Calls keyed at random on the panel of dispatcher.asm, with resets between. Half of them are served and chimed before
   the next, the others find the program still at the chime. */
static void the_dispatcher(const char *book)
{
    enum { CALLS_MADE = 100, SERVED = 90, CHIMED = 3500, RESET_ONE_IN = 10 };
    uint64_t value;
    uint32_t answer = galhoveia_fresh(machine.memory, MEMORY_BYTES, machine.record, RECORD_BYTES, 1, &value);

    check(answer == 0, "fresh: answer %u", answer);
    read_program(book);
    forget_lists();
    for (int call = 0; call < CALLS_MADE; call++) {
        cycles(any(2 * SERVED));
        (void)step((uint8_t)(0x20 + any(16)));
        (void)step((uint8_t)(0x30 + any(16)));
        (void)step(PINS_A + 1);
        cycles(SERVED);
        (void)step(SOUND_CLOCK);
        cycles(CHIMED * any(2));
        (void)step(PINS_A);
        (void)step(any(2) ? BASE_PULSE : WATCHDOG_PULSE);
        if (any(RESET_ONE_IN) == 0)
            (void)step(RESET_PIN);
    }
    progress("changes: %" PRIu64 " in %d calls on the dispatcher; failed so far %lu", seen[CHANGES], CALLS_MADE,
             failed);
    check(seen[CHANGES] > CALLS_MADE, "only %" PRIu64 " changes in %d calls", seen[CHANGES], CALLS_MADE);
}

/* ---- Programs at random ---- */

static void one_machine(enum mix mix)
{
    uint8_t script[SCRIPT_LENGTH];

    random_machine(&machine);
    random_script(script, sizeof script, mix);
    for (size_t at = 0; at < sizeof script; at++) {
        if (!step(script[at]))
            set_two(machine.record + R_PC, any(WORDS));
        if (any(NUDGED_ONE_IN) == 0)
            nudge(&machine);
    }
}

void compare_changes(const struct plan *plan)
{
    uint64_t wanted;

    cell_stride = plan->cell_stride;
    the_dispatcher(plan->book);
    wanted = seen[EVENTS] + plan->events / OF_ALL_EVENTS;
    for (unsigned number = 0; seen[EVENTS] < wanted; number++) {
        random_program(program, (enum mix)(number % MIXES));
        forget_lists();
        for (int times = 0; times < MACHINES_ON_ONE_PROGRAM; times++)
            one_machine((enum mix)(number % MIXES));
    }
    for (int what = 0; what < SEEN; what++) {
        printf("  %-36s %12" PRIu64 "\n", seen_name[what], seen[what]);
        check(seen[what] > 0, "no %s", seen_name[what]);
    }
    for (unsigned code = 0; code < CODES; code++)
        check((changed_by_code[code] > 0) == code_writes(code), "code %u changed %" PRIu64 " cells", code,
              changed_by_code[code]);
    check(CHANGES_ONE_IN * seen[CHANGES] > seen[EVENTS], "only %" PRIu64 " changes in %" PRIu64 " events",
          seen[CHANGES], seen[EVENTS]);
    progress("changes: %" PRIu64 " held against %" PRIu64 " lists; failed so far %lu", seen[CHANGES], lists, failed);
}
