/* Two cars drawn for a run over one program and one wiring. */
#ifndef TESTS_COMPARE_TWO_H
#define TESTS_COMPARE_TWO_H

#include "support.h"

enum { OWN_MOST = 1 << 14, BEYOND_MOST = 16 };

struct drawn_car {
    struct machine start;
    uint32_t stop;
    size_t events;             /* its entries, and of each: */
    uint8_t own[OWN_MOST];     /* the event */
    size_t entry_of[OWN_MOST]; /* where it stands in the script, counted in entries */
    uint8_t picture[ELEMENTS_MOST + BEYOND_MOST]; /* what stands in the room before the run */
    size_t room;
    bool goes_on; /* the next run over this program may start where this car ended, in: */
    struct machine end;
};

extern struct two_cars {
    uint8_t program[PROGRAM_BYTES];
    uint8_t wiring[WIRING_MOST];
    unsigned elements;
    struct drawn_car car[CARS];
    uint8_t script[2 * CARS * OWN_MOST];
    size_t entries;
} cars;

/* The draws are numbered from 0, and several with the same program follow each other. */
void draw_cars(uint64_t number);

/* The same again with a script of so many entries only, and with so many entries of a car more in front, where there is
   room for them. */
void shorten(size_t entries);
void put_in_front(int at, size_t entries);

/* Lengths of scripts, in entries, that are drawn again and again: none, few, and around each size of the parts in which
   a library may take a script. */
enum { CHOSEN_LENGTHS = 39 };

extern const uint16_t chosen_lengths[CHOSEN_LENGTHS];

#endif
