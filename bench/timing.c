/* Timing, by processor time, so that other work on the machine counts as little as possible. */
#define _POSIX_C_SOURCE 199309L
#include "timing.h"

#include <stdio.h>
#include <stdlib.h>
#include <string.h>
#include <time.h>

static double now(void)
{
    struct timespec time;

    clock_gettime(CLOCK_PROCESS_CPUTIME_ID, &time);
    return (double)time.tv_sec + 1e-9 * (double)time.tv_nsec;
}

static void must(int done, const char *what)
{
    if (!done) {
        printf("%s was not done\n", what);
        exit(EXIT_FAILURE);
    }
}

static void run(const struct side *side, size_t record, struct load load, size_t length, struct machine *machine)
{
    uint32_t reason;
    uint64_t events, value;

    must(side->run(load.program, GALHOVEIA_PROGRAM_BYTES, machine->memory, sizeof machine->memory, machine->record,
                   record, load.script, length, GALHOVEIA_NO_STOP, &reason, &events, &value) == 0
             && events == length,
         "a run");
}

double time_runs(const struct side *side, struct load load, size_t length, size_t times, struct machine *machine)
{
    size_t record = record_bytes(side);
    double start = now();

    for (size_t at = 0; at < times; at++)
        run(side, record, load, length, machine);
    return (now() - start) / (double)(length * times);
}

double time_steps(const struct side *side, struct load load, size_t times, struct machine *machine)
{
    size_t record = record_bytes(side);
    uint64_t value;
    double start = now();

    for (size_t at = 0; at < times; at++)
        must(side->step(load.program, GALHOVEIA_PROGRAM_BYTES, machine->memory, sizeof machine->memory, machine->record,
                        record, load.script[at], &value) == 0,
             "a step");
    return (now() - start) / (double)times;
}

static uint32_t asked_cell(size_t at, unsigned cells)
{
    return 0x020 + (uint32_t)(at % cells);
}

double time_lists(const struct side *side, const uint8_t *program, unsigned cells, size_t times,
                  uint8_t addresses[GALHOVEIA_PROGRAM_BYTES])
{
    uint64_t count = 0, value;
    double start = now(), time;

    for (size_t at = 0; at < times; at++)
        must(side->list(program, GALHOVEIA_PROGRAM_BYTES, asked_cell(at, cells), addresses,
                        GALHOVEIA_PROGRAM_BYTES, &count, &value) == 0,
             "a list");
    time = (now() - start) / (double)times;
    memset(addresses + count, 0, GALHOVEIA_PROGRAM_BYTES - count);
    return time;
}

double time_builds(const struct side *side, size_t times, struct xref *xref)
{
    uint64_t value;
    double start = now();

    for (size_t at = 0; at < times; at++)
        must(side->xref_build(xref->program, sizeof xref->program, xref->tables, GALHOVEIA_XREF_NUMBERS, &value) == 0,
             "a cross-reference");
    return (now() - start) / (double)times;
}

double time_answers(const struct side *side, const struct xref *xref, unsigned cells, size_t times,
                    uint8_t addresses[GALHOVEIA_PROGRAM_BYTES])
{
    uint64_t count = 0, value;
    double start = now(), time;

    for (size_t at = 0; at < times; at++)
        must(side->xref_list(xref->program, sizeof xref->program, xref->tables, GALHOVEIA_XREF_NUMBERS,
                             asked_cell(at, cells), addresses, GALHOVEIA_PROGRAM_BYTES, &count, &value) == 0,
             "an answer");
    time = (now() - start) / (double)times;
    memset(addresses + count, 0, GALHOVEIA_PROGRAM_BYTES - count);
    return time;
}

double time_replacements(const struct side *side, const struct replacement *replacements, size_t count,
                         struct xref *xref)
{
    uint64_t value;
    double start = now();

    for (size_t at = 0; at < count; at++)
        must(side->xref_replace(xref->program, sizeof xref->program, xref->tables, GALHOVEIA_XREF_NUMBERS,
                                replacements[at].address, replacements[at].word, &value) == 0,
             "a replacement");
    return (now() - start) / (double)count;
}

double time_levels(const struct side *side, const struct machine *machine, const uint8_t *body, size_t times,
                   struct shown *shown)
{
    uint64_t value;
    double start = now();

    for (size_t at = 0; at < times; at++)
        must(side->level(machine->memory, sizeof machine->memory, body, GALHOVEIA_LEVEL_BYTES, &shown->level, &value)
                 == 0,
             "a level");
    return (now() - start) / (double)times;
}

static void draw(const struct side *side, size_t record, const struct machine *machine, const uint8_t *wiring,
                 uint8_t picture[GALHOVEIA_ELEMENTS_MOST])
{
    uint64_t count, value;

    must(side->picture(machine->memory, sizeof machine->memory, machine->record, record, wiring,
                       GALHOVEIA_ELEMENT_BYTES * GALHOVEIA_ELEMENTS_MOST, picture, GALHOVEIA_ELEMENTS_MOST, &count,
                       &value)
                 == 0
             && count == GALHOVEIA_ELEMENTS_MOST,
         "a picture");
}

double time_pictures(const struct side *side, const struct machine *machine, const uint8_t *wiring, size_t times,
                     struct shown *shown)
{
    size_t record = record_bytes(side);
    double start = now();

    for (size_t at = 0; at < times; at++)
        draw(side, record, machine, wiring, shown->picture);
    return (now() - start) / (double)times;
}

double time_run_two(const struct side *side, const struct load_of_two *load, struct car car[CARS])
{
    size_t record = record_bytes(side);
    uint32_t reason[CARS];
    uint64_t entries, value;
    double start = now();

    must(side->run_two(load->alone.program, GALHOVEIA_PROGRAM_BYTES, load->wiring, sizeof load->wiring,
                       car[0].machine.memory, sizeof car[0].machine.memory, car[0].machine.record, record,
                       car[0].picture, sizeof car[0].picture, car[1].machine.memory, sizeof car[1].machine.memory,
                       car[1].machine.record, record, car[1].picture, sizeof car[1].picture, load->entries,
                       ENTRY_BYTES * load->length, GALHOVEIA_NO_STOP, GALHOVEIA_NO_STOP, &reason[0], &reason[1],
                       &entries, &value)
                 == 0
             && reason[0] == GALHOVEIA_AT_END && reason[1] == GALHOVEIA_AT_END,
         "a run of two cars");
    return (now() - start) / (double)load->length;
}

double time_two_runs(const struct side *side, const struct load_of_two *load, struct car car[CARS])
{
    size_t record = record_bytes(side);
    double start = now();

    for (int at = 0; at < CARS; at++) {
        run(side, record, load->alone, load->own[at], &car[at].machine);
        draw(side, record, &car[at].machine, load->wiring, car[at].picture);
    }
    return (now() - start) / (double)load->length;
}

double time_listings_written(const struct side *side, const uint8_t *program, size_t times, struct listing *listing)
{
    uint64_t value;
    double start = now(), time;

    for (size_t at = 0; at < times; at++)
        must(side->listing_write(program, GALHOVEIA_PROGRAM_BYTES, listing->text, sizeof listing->text,
                                 &listing->length, &value) == 0,
             "a listing");
    time = (now() - start) / (double)times;
    memset(listing->text + listing->length, 0, sizeof listing->text - listing->length);
    return time;
}

double time_listings_read(const struct side *side, const struct listing *listing, size_t times,
                          uint8_t program[GALHOVEIA_PROGRAM_BYTES])
{
    uint64_t value;
    double start = now();

    for (size_t at = 0; at < times; at++)
        must(side->listing_read(listing->text, listing->length, program, GALHOVEIA_PROGRAM_BYTES, &value) == 0,
             "reading a listing");
    return (now() - start) / (double)times;
}
