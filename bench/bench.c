/* Measures galhoveia beside the second emulator and, where one is given, beside an earlier galhoveia: the same inputs,
   in one run, turn by turn. */
#include "loads.h"
#include "sides.h"
#include "table.h"
#include "timing.h"

#include <stdio.h>
#include <stdlib.h>
#include <string.h>

enum {
    RUN_EVENTS = 2000000, STEPS = 40000, LISTED_CELLS = 40, LISTS = 40, SECOND_LISTS = 1, LEVELS = 40000,
    PICTURES = 40000, LISTINGS = 100, XREFS = 200, OFTEN = 10, SELDOM = 100, LONGEST = 10000000,
    TIMED_AT_LEAST = 1000000
};

static struct machine awake(void)
{
    struct machine machine;
    uint64_t value;

    if (galhoveia_fresh(machine.memory, sizeof machine.memory, machine.record, sizeof machine.record, 0, &value)) {
        printf("no fresh machine\n");
        exit(EXIT_FAILURE);
    }
    machine.memory[0x010] = 5; /* the pointer at data cell $025 */
    machine.memory[0x011] = 2;
    return machine;
}

static struct machine asleep(void)
{
    struct machine machine = awake();

    machine.record[GALHOVEIA_RECORD_MODE] = GALHOVEIA_HALT;
    return machine;
}

/* Both channels on, with the two tones of the data sheet's example 4. */
static struct machine sounding(void)
{
    struct machine machine = awake();

    machine.memory[0x371] = 0x3;
    machine.memory[0x372] = 0x2 | 8;
    machine.memory[0x375] = 0xF;
    machine.memory[0x376] = 0x4;
    machine.memory[0x377] = 3;
    return machine;
}

/* ---- Side by side ---- */

/* A load on which two sides differ would measure nothing. */
static void same(const char *what, const void *left, const void *right, size_t length)
{
    if (memcmp(left, right, length) != 0) {
        printf("%s: two sides came to different ends\n", what);
        exit(EXIT_FAILURE);
    }
}

/* The sides that know a record as long as this: an earlier galhoveia may have no sound, or freeze nothing on reading
   $005. */
static int sides_with(size_t length)
{
    return sides > BEFORE && record_bytes(side_in(0, BEFORE)) < length ? BEFORE : sides;
}

static void measure_run_on(int taking_part, const char *what, struct load load, struct machine start)
{
    struct times times = {0};

    for (int turn = 0; turn < TURNS; turn++) {
        struct machine end[SIDES_MOST];

        for (int at = 0; at < taking_part; at++) {
            end[at] = start;
            times.of[at][turn] = time_runs(side_in(turn, at), load, RUN_EVENTS, 1, &end[at]);
            same(what, &end[GALHOVEIA], &end[at], sizeof end[at]);
        }
    }
    line(what, &times);
}

static void measure_run(const char *what, struct load load, struct machine start)
{
    measure_run_on(sides, what, load, start);
}

static void measure_steps(const char *what, struct load load)
{
    struct times times = {0};

    for (int turn = 0; turn < TURNS; turn++) {
        struct machine end[SIDES_MOST];

        for (int at = 0; at < sides; at++) {
            end[at] = awake();
            times.of[at][turn] = time_steps(side_in(turn, at), load, STEPS, &end[at]);
            same(what, &end[GALHOVEIA], &end[at], sizeof end[at]);
        }
    }
    line(what, &times);
}

/* The second emulator, which is slow at this, makes fewer lists; that of the first cell is compared. */
static void measure_lists(const char *what, const uint8_t *program, unsigned cells)
{
    static uint8_t list[SIDES_MOST][GALHOVEIA_PROGRAM_BYTES];
    struct times times = {0};

    for (int turn = 0; turn < TURNS; turn++)
        for (int at = 0; at < sides; at++) {
            times.of[at][turn] = time_lists(side_in(turn, at), program, cells, at == SECOND ? SECOND_LISTS : LISTS, list[at]);
            (void)time_lists(side_in(turn, at), program, 1, 1, list[at]);
            same(what, list[GALHOVEIA], list[at], sizeof list[at]);
        }
    line(what, &times);
}

static void measure_levels(const char *what)
{
    static const uint8_t body[GALHOVEIA_LEVEL_BYTES] = {0x00, 0x20, 0x00, 0x21, 2};
    struct times times = {0};
    struct shown shown[SIDES_MOST] = {0};
    struct machine machine = awake();

    machine.memory[0x020] = 4;
    machine.memory[0x021] = 7;
    for (int turn = 0; turn < TURNS; turn++)
        for (int at = 0; at < sides; at++) {
            times.of[at][turn] = time_levels(side_in(turn, at), &machine, body, LEVELS, &shown[at]);
            same(what, &shown[GALHOVEIA], &shown[at], sizeof shown[at]);
        }
    line(what, &times);
}

static void measure_pictures(const char *what)
{
    uint8_t wiring[GALHOVEIA_ELEMENT_BYTES * GALHOVEIA_ELEMENTS_MOST];
    struct times times = {0};
    struct shown shown[SIDES_MOST] = {0};
    struct machine machine = awake();

    machine.memory[0x007] = 4; /* the display is on */
    full_panel(machine.memory, wiring);
    for (int turn = 0; turn < TURNS; turn++)
        for (int at = 0; at < sides; at++) {
            times.of[at][turn] = time_pictures(side_in(turn, at), &machine, wiring, PICTURES, &shown[at]);
            same(what, &shown[GALHOVEIA], &shown[at], sizeof shown[at]);
        }
    line(what, &times);
}

/* ---- Listings ---- */

static int sides_with_listings(void)
{
    return sides > BEFORE && side_in(0, BEFORE)->listing_write == NULL ? BEFORE : sides;
}

static struct times measure_listings_written(const char *what, const uint8_t *program)
{
    static struct listing listing[SIDES_MOST];
    struct times times = {0};

    for (int turn = 0; turn < TURNS; turn++)
        for (int at = 0; at < sides_with_listings(); at++) {
            times.of[at][turn] = time_listings_written(side_in(turn, at), program, LISTINGS, &listing[at]);
            same(what, &listing[GALHOVEIA], &listing[at], sizeof listing[at]);
        }
    line(what, &times);
    return times;
}

static struct times measure_listings_read(const char *what, const uint8_t *program)
{
    static struct listing listing;
    uint8_t read[GALHOVEIA_PROGRAM_BYTES];
    struct times times = {0};

    (void)time_listings_written(side_in(0, SECOND), program, 1, &listing);
    for (int turn = 0; turn < TURNS; turn++)
        for (int at = 0; at < sides_with_listings(); at++) {
            times.of[at][turn] = time_listings_read(side_in(turn, at), &listing, LISTINGS, read);
            same(what, program, read, sizeof read);
        }
    line(what, &times);
    return times;
}

static void measure_listings(const uint8_t *forms, const uint8_t *example)
{
    struct times forms_written = measure_listings_written("listing written: all forms, listings", forms);
    struct times forms_read = measure_listings_read("listing read: all forms, listings", forms);
    struct times example_written = measure_listings_written("listing written: the example, listings", example);
    struct times example_read = measure_listings_read("listing read: the example, listings", example);

    heading_in_microseconds();
    line_in_microseconds("listing written: all forms", &forms_written);
    line_in_microseconds("listing read: all forms", &forms_read);
    line_in_microseconds("listing written: the example", &example_written);
    line_in_microseconds("listing read: the example", &example_read);
}

/* ---- Two cars ---- */

static int sides_with_two(void)
{
    return sides > BEFORE && side_in(0, BEFORE)->run_two == NULL ? BEFORE : sides;
}

static double time_two(int turn, int at, const struct load_of_two *load, struct car car[CARS])
{
    if (at == TWO_RUNS)
        return time_two_runs(side_in(turn, GALHOVEIA), load, car);
    return time_run_two(side_in(turn, at), load, car);
}

/* Two runs are timed right behind the run that they are held against. */
static void measure_two(const char *what, struct load alone, struct machine start, enum dealing dealing)
{
    static const int timed[TIMED_MOST] = {GALHOVEIA, TWO_RUNS, SECOND, BEFORE};
    static uint8_t entries[ENTRY_BYTES * RUN_EVENTS];
    struct load_of_two load = {.alone = alone, .entries = entries, .length = RUN_EVENTS};
    struct times times = {0};

    deal(entries, RUN_EVENTS, alone.script, dealing, load.own);
    start.memory[0x007] = 4; /* the display is on */
    full_panel(start.memory, load.wiring);
    for (int turn = 0; turn < TURNS; turn++) {
        struct car end[TIMED_MOST][CARS];

        for (int next = 0; next < sides_with_two() + 1; next++) {
            int at = timed[next];

            for (int car = 0; car < CARS; car++)
                end[at][car] = (struct car){start, {0}};
            times.of[at][turn] = time_two(turn, at, &load, end[at]);
            same(what, end[GALHOVEIA], end[at], sizeof end[at]);
        }
    }
    line_of_two(what, &times);
}

/* ---- The cross-reference ---- */

static int sides_with_xref(void)
{
    return sides > BEFORE && side_in(0, BEFORE)->xref_build == NULL ? BEFORE : sides;
}

struct xref_load {
    const uint8_t *program;
    unsigned cells;
    struct replacement replacements[2 * XREFS]; /* forth, then back */
};

/* What a side's calls come to. */
struct xref_ends {
    struct xref built, forth, back;
    uint8_t answer[GALHOVEIA_PROGRAM_BYTES];
};

static void time_xref(int turn, int at, const struct xref_load *load, struct times times[XREF_CALLS],
                      struct xref_ends *ends)
{
    const struct side *side = side_in(turn, at);
    double forth, back;

    memset(ends, 0, sizeof *ends);
    memcpy(ends->built.program, load->program, sizeof ends->built.program);
    times[BUILD].of[at][turn] = time_builds(side, XREFS, &ends->built);
    times[ANSWER].of[at][turn] = time_answers(side, &ends->built, load->cells, XREFS, ends->answer);
    ends->forth = ends->built;
    forth = time_replacements(side, load->replacements, XREFS, &ends->forth);
    ends->back = ends->forth;
    back = time_replacements(side, load->replacements + XREFS, XREFS, &ends->back);
    times[REPLACE].of[at][turn] = (forth + back) / 2;
}

/* Galhoveia's calls are timed right behind the lists that they are held against. */
static void measure_xref(const char *what, const uint8_t *program, unsigned cells)
{
    static struct xref_ends ends[SIDES_MOST];
    static uint8_t list[GALHOVEIA_PROGRAM_BYTES];
    struct xref_load load = {.program = program, .cells = cells};
    struct times times[XREF_CALLS] = {0};

    forth_and_back(load.replacements, XREFS, program);
    for (int turn = 0; turn < TURNS; turn++) {
        times[LIST].of[GALHOVEIA][turn] = time_lists(side_in(turn, GALHOVEIA), program, cells, XREFS, list);
        for (int at = 0; at < sides_with_xref(); at++) {
            time_xref(turn, at, &load, times, &ends[at]);
            same(what, list, ends[at].answer, sizeof list);
            same(what, &ends[at].built, &ends[at].back, sizeof ends[at].back);
            same(what, &ends[GALHOVEIA], &ends[at], sizeof ends[at]);
        }
    }
    lines_of_xref(what, times);
}

/* ---- How the time grows ---- */

static double time_length(int turn, struct load load, size_t length)
{
    size_t times = length < TIMED_AT_LEAST ? TIMED_AT_LEAST / length : 1;
    struct machine machine = awake();

    return time_runs(side_in(turn, GALHOVEIA), load, length, times, &machine);
}

/* Every turn takes all lengths, so that other work on the machine disturbs one as much as another. */
static void measure_lengths(const char *what, struct load load)
{
    static const size_t lengths[] = {1000, 10000, 100000, 1000000, LONGEST};
    enum { LENGTHS = sizeof lengths / sizeof lengths[0] };
    double best[LENGTHS];

    for (int turn = 0; turn < TURNS; turn++)
        for (int at = 0; at < LENGTHS; at++) {
            double time = time_length(turn, load, lengths[at]);

            if (turn == 0 || time < best[at])
                best[at] = time;
        }
    printf("%s\n", what);
    for (int at = 0; at < LENGTHS; at++)
        printf("%42zu %14.1f\n", lengths[at], 1e9 * best[at]);
}

int main(void)
{
    static uint8_t nops[GALHOVEIA_PROGRAM_BYTES], mixture[GALHOVEIA_PROGRAM_BYTES], calls[GALHOVEIA_PROGRAM_BYTES],
        example[GALHOVEIA_PROGRAM_BYTES], general[GALHOVEIA_PROGRAM_BYTES], writers[GALHOVEIA_PROGRAM_BYTES],
        forms[GALHOVEIA_PROGRAM_BYTES];
    static uint8_t cycles[LONGEST], mixture_pins[RUN_EVENTS], calls_pins[RUN_EVENTS], example_keys[RUN_EVENTS],
        sound[RUN_EVENTS];

    if (sides > BEFORE && !adjusts_the_cell(side_in(0, BEFORE))) {
        printf("The earlier galhoveia adjusts AC by DAA and DAS: LDA stands for them in the mixed words.\n");
        without_decimals();
    }
    example_dispatcher(example, example_keys, RUN_EVENTS);
    only_nops(nops);
    only_cycles(cycles, LONGEST);
    mixed(mixture);
    some_pins(mixture_pins, RUN_EVENTS, OFTEN);
    calls_and_registers(calls);
    some_pins(calls_pins, RUN_EVENTS, SELDOM);
    cycles_and_sound(sound, RUN_EVENTS);
    general_words(general);
    only_writers(writers, 0x020);
    all_forms(forms);

    heading(sides);
    measure_run("run: NOPs, events", (struct load){nops, cycles}, awake());
    measure_run("run: mixed program, events", (struct load){mixture, cycles}, awake());
    measure_run("run: mixed, a tenth pin events, events", (struct load){mixture, mixture_pins}, awake());
    measure_run_on(sides_with(GALHOVEIA_RECORD_OUTPUT_2 + 1), "run: mixed, 4 sound clocks a cycle, events",
                   (struct load){mixture, sound}, sounding());
    measure_run_on(sides_with(GALHOVEIA_RECORD_FROZEN_MARK + 1), "run: calls and registers, events",
                   (struct load){calls, calls_pins}, awake());
    measure_run("run: the example dispatcher, events", (struct load){example, example_keys}, awake());
    measure_run("run: asleep in HALT, events", (struct load){mixture, cycles}, asleep());
    measure_run("run: general events, events", (struct load){general, cycles}, awake());
    measure_steps("step: mixed program, steps", (struct load){mixture, cycles});
    measure_lists("list: mixed program, lists", mixture, LISTED_CELLS);
    measure_lists("list: every word names the cell, lists", writers, 1);
    measure_levels("level, levels");
    measure_pictures("picture, 240 elements, pictures");
    measure_listings(forms, example);
    printf("The second emulator lists by trial, so that its lists tell nothing of speed.\n");
    heading_of_two(sides_with_two());
    measure_two("NOPs", (struct load){nops, cycles}, awake(), AT_RANDOM);
    measure_two("mixed program", (struct load){mixture, cycles}, awake(), AT_RANDOM);
    measure_two("mixed program, by turns", (struct load){mixture, cycles}, awake(), BY_TURNS);
    measure_two("mixed program, in rows of 5,000", (struct load){mixture, cycles}, awake(), IN_ROWS);
    measure_two("mixed, a tenth pin events", (struct load){mixture, mixture_pins}, awake(), AT_RANDOM);
    measure_two("calls and registers", (struct load){calls, calls_pins}, awake(), AT_RANDOM);
    measure_two("the example dispatcher", (struct load){example, example_keys}, awake(), AT_RANDOM);
    measure_two("asleep in HALT", (struct load){mixture, cycles}, asleep(), AT_RANDOM);
    measure_two("general events", (struct load){general, cycles}, awake(), AT_RANDOM);
    heading_of_xref(sides_with_xref());
    measure_xref("mixed program", mixture, LISTED_CELLS);
    measure_xref("the example dispatcher", example, LISTED_CELLS);
    measure_xref("calls and registers", calls, LISTED_CELLS);
    measure_xref("NOPs", nops, LISTED_CELLS);
    measure_xref("every word names the cell", writers, 1);
    measure_lengths("run: how the time grows, mixed program: events in a run, ns an event",
                    (struct load){mixture, cycles});
    return EXIT_SUCCESS;
}
