/* The chip as the debugger shows it: what stands beside its memory, and the memory by the data sheet's names. */
#include "debug_words.h"
#include "xref.h"

#include <stdio.h>
#include <string.h>

/* ---- Beside the memory ---- */

static void show_stack(const uint8_t *stack)
{
    printf("stack, newest first, PC/CY:");
    for (int level = 0; level < GALHOVEIA_LEVELS; level++)
        printf(" $%03X/%u", two(stack + 2 * level) % GALHOVEIA_WORDS, two(stack + 2 * level) / GALHOVEIA_WORDS);
    printf("\n");
}

static void show_timers(const uint8_t *record)
{
    printf("Timer0: prescaler %u, counter $%02X, load $%02X%s\n", two(record + GALHOVEIA_RECORD_TIMER0_PRESCALER),
           record[GALHOVEIA_RECORD_TIMER0_COUNTER], record[GALHOVEIA_RECORD_TIMER0_LOAD],
           record[GALHOVEIA_RECORD_FROZEN_MARK] ? "" : ", no nibble frozen");
    printf("base timer: prescaler %u, counter $%02X\n", record[GALHOVEIA_RECORD_BASE_PRESCALER],
           record[GALHOVEIA_RECORD_BASE_COUNTER]);
}

/* What the options switch: bit 0 the watchdog, bits 1 and 2 the bonding bits. */
static void show_options(const uint8_t *record)
{
    unsigned options = record[GALHOVEIA_RECORD_OPTIONS];

    printf("watchdog: %s, its count %u ms\n", options & 1 ? "on" : "off", two(record + GALHOVEIA_RECORD_WATCHDOG));
    printf("options %u: watchdog %s, BD0 %u, BD1 %u\n", options, options & 1 ? "on" : "off", options >> 1 & 1,
           options >> 2 & 1);
}

static void show_rest(const uint8_t *record)
{
    const uint8_t *pins = record + GALHOVEIA_RECORD_PINS;

    printf("pins: A %X, B %X, C %X, D %X\n", pins[0], pins[1], pins[2], pins[3]);
    if (record[GALHOVEIA_RECORD_PENDING])
        printf("a read of program data is under way, at $%03X\n", two(record + GALHOVEIA_RECORD_PENDING_ADDRESS));
    else
        printf("no read of program data is under way\n");
}

void do_registers(struct debugger *debugger, const struct typed *typed)
{
    const struct state *state = &debugger->now.state;

    (void)typed;
    show_registers(state);
    show_stack(state->record + GALHOVEIA_RECORD_STACK);
    show_timers(state->record);
    show_options(state->record);
    show_rest(state->record);
}

/* ---- Memory ---- */

enum { ROW = 16 };

static bool is_port(unsigned cell)
{
    return cell >= PORT_A && cell <= PORT_D;
}

/* A port is shown as a program reads it, which is not what memory has of it; any other cell as it stands there. */
static unsigned value_of(const struct state *state, unsigned cell)
{
    return is_port(cell) ? reads_as(state, cell) : state->memory[cell];
}

/* What stands in memory of a port and at its pins, and of Timer0 its counter. */
static void show_beside_register(const struct state *state, unsigned cell)
{
    if (is_port(cell))
        printf("; latch %X, pins %X", state->memory[cell], state->record[GALHOVEIA_RECORD_PINS + cell - PORT_A]);
    if (cell == TIMER0_LOW || cell == TIMER0_HIGH)
        printf("; the counter is $%02X", state->record[GALHOVEIA_RECORD_TIMER0_COUNTER]);
}

static void show_register(const struct debugger *debugger, const struct sheet_register *shown)
{
    const struct state *state = &debugger->now.state;
    unsigned value = value_of(state, shown->cell);
    char text[64] = "";
    size_t length = 0;

    printf("$%03X %-5s ", shown->cell, shown->name ? shown->name : "");
    if (bits_kept(debugger, shown->cell) == 0) {
        printf("-  %-42s %s", "keeps nothing in memory", shown->remark);
    } else {
        for (int bit = BITS - 1; bit >= 0; bit--)
            if (shown->bit[bit] != NULL)
                length += (size_t)snprintf(text + length, sizeof text - length, "%s %u  ", shown->bit[bit],
                                           value >> bit & 1);
        printf("%X  %-42s %s", value, text, shown->remark);
    }
    show_beside_register(state, shown->cell);
    printf("\n");
}

static void show_bit(const struct debugger *debugger, struct asked asked)
{
    const struct sheet_register *of = register_at(asked.cell);
    const struct state *state = &debugger->now.state;
    unsigned value = value_of(state, asked.cell);

    if (bits_kept(debugger, asked.cell) == 0) {
        show_register(debugger, of);
        return;
    }
    printf("%s is %u: bit %u of $%03X, which is %X", of->bit[asked.bit], value >> asked.bit & 1, asked.bit, asked.cell,
           value);
    show_beside_register(state, asked.cell);
    printf("\n");
}

static void show_cell(const struct debugger *debugger, unsigned cell)
{
    if (register_at(cell) != NULL)
        show_register(debugger, register_at(cell));
    else if (bits_kept(debugger, cell) == 0)
        printf("$%03X -  keeps nothing in memory\n", cell);
    else
        printf("$%03X %X%s\n", cell, debugger->now.state.memory[cell], cell_meaning(debugger->book, cell));
}

/* Rows of sixteen cells, so that a cell's last digit is its place in the row. */
static void show_grid(const struct debugger *debugger, unsigned first, unsigned last)
{
    for (unsigned row = first / ROW * ROW; row <= last; row += ROW) {
        printf("$%03X ", row);
        for (unsigned cell = row; cell < row + ROW && cell <= last; cell++)
            if (cell < first)
                printf("  ");
            else if (bits_kept(debugger, cell) == 0)
                printf(" -");
            else
                printf(" %X", debugger->now.state.memory[cell]);
        printf("\n");
    }
}

static void show_names(const struct debugger *debugger)
{
    for (int at = 0; at < REGISTERS; at++)
        show_register(debugger, &sheet_registers[at]);
}

/* A range is two cells with - between them; no name of the sheet has one. */
static void show_range(const struct debugger *debugger, const struct typed *typed, char *dash)
{
    struct asked first, last;

    *dash = '\0';
    first = cell_at(typed, 0);
    last = cell_from(typed, dash + 1);
    if (first.bit != BITS || last.bit != BITS || first.cell > last.cell)
        misused(typed, "a range goes from a cell up to a cell, unlike that from", typed->argument[0]);
    show_grid(debugger, first.cell, last.cell);
}

void do_show(struct debugger *debugger, const struct typed *typed)
{
    char *dash = typed->count > 0 ? strchr(typed->argument[0], '-') : NULL;
    struct asked asked;

    if (dash != NULL) {
        show_range(debugger, typed, dash);
        return;
    }
    if (typed->count == 0 || is_argument(typed, 0, "all"))
        show_names(debugger);
    if (is_argument(typed, 0, "all"))
        for (int kind = 0; kind < KINDS; kind++) {
            printf("%s cells:\n", kinds[kind].name);
            show_grid(debugger, kinds[kind].first, kinds[kind].last);
        }
    if (typed->count == 0 || is_argument(typed, 0, "all"))
        return;
    asked = cell_at(typed, 0);
    if (asked.bit != BITS)
        show_bit(debugger, asked);
    else
        show_cell(debugger, asked.cell);
}
