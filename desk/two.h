/* Two cars, each with a chip of its own, over one book. */
#ifndef DESK_TWO_H
#define DESK_TWO_H

#include "command.h"

enum { CARS = 2 };

struct car {
    const char *save; /* the file for its state after the run; NULL for none */
    uint32_t stop, reason;
    struct state state; /* before the run, then after it */
    uint8_t picture[GALHOVEIA_ELEMENTS_MOST];
};

struct two_cars {
    const struct book *book;
    struct bytes script; /* entries of two bytes, a car and an event */
    uint64_t read;
    struct car car[CARS];
};

/* Lets the script's entries happen to both cars, says how that ended, saves the states that are to be saved, and shows
   both panels side by side. A refusal is said, and where it concerns one car, which. */
enum status run_two_cars(struct two_cars *cars, struct look look, bool force);

/* The command desk run-two. */
enum status work_run_two(const struct command *command, int count, char **words);

#endif
