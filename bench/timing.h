/* The time that one side takes for one event, step or call of a load, in seconds. A call that is not done ends the
   bench. */
#ifndef BENCH_TIMING_H
#define BENCH_TIMING_H

#include "loads.h"
#include "sides.h"

#include "../desk/galhoveia.h"

struct load {
    const uint8_t *program, *script;
};

struct machine {
    uint8_t memory[GALHOVEIA_MEMORY_BYTES];
    uint8_t record[GALHOVEIA_RECORD_BYTES];
};

/* What a panel shows. */
struct shown {
    int32_t level;
    uint8_t picture[GALHOVEIA_ELEMENTS_MOST];
};

/* The machine goes on from one run to the next, so that short runs come to the same words as long ones. */
double time_runs(const struct side *side, struct load load, size_t length, size_t times, struct machine *machine);

double time_steps(const struct side *side, struct load load, size_t times, struct machine *machine);

/* The lists of as many cells from $020 on, in turn; the last one stays. */
double time_lists(const struct side *side, const uint8_t *program, unsigned cells, size_t times,
                  uint8_t addresses[GALHOVEIA_PROGRAM_BYTES]);

/* A program and its cross-reference. */
struct xref {
    uint8_t program[GALHOVEIA_PROGRAM_BYTES];
    uint16_t tables[GALHOVEIA_XREF_NUMBERS];
};

double time_builds(const struct side *side, size_t times, struct xref *xref);

/* What time_lists makes, from the tables. */
double time_answers(const struct side *side, const struct xref *xref, unsigned cells, size_t times,
                    uint8_t addresses[GALHOVEIA_PROGRAM_BYTES]);

/* Each replacement is made once. */
double time_replacements(const struct side *side, const struct replacement *replacements, size_t count,
                         struct xref *xref);

double time_levels(const struct side *side, const struct machine *machine, const uint8_t *body, size_t times,
                   struct shown *shown);
double time_pictures(const struct side *side, const struct machine *machine, const uint8_t *wiring, size_t times,
                     struct shown *shown);

/* A load of each of two cars, which share its program and take its script from the beginning: in entries, and how many
   events are whose own. */
struct load_of_two {
    struct load alone;
    const uint8_t *entries;
    size_t length, own[CARS];
    uint8_t wiring[GALHOVEIA_ELEMENT_BYTES * GALHOVEIA_ELEMENTS_MOST];
};

struct car {
    struct machine machine;
    uint8_t picture[GALHOVEIA_ELEMENTS_MOST];
};

/* The run of two cars; and what it is held against, the run of each car over its own events, and its picture. */
double time_run_two(const struct side *side, const struct load_of_two *load, struct car car[CARS]);
double time_two_runs(const struct side *side, const struct load_of_two *load, struct car car[CARS]);

/* A program as text. */
struct listing {
    uint64_t length;
    uint8_t text[GALHOVEIA_LISTING_BYTES_MOST];
};

double time_listings_written(const struct side *side, const uint8_t *program, size_t times, struct listing *listing);
double time_listings_read(const struct side *side, const struct listing *listing, size_t times,
                          uint8_t program[GALHOVEIA_PROGRAM_BYTES]);

#endif
