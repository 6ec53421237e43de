/* The parts of the comparison, in the order in which they run. */
#ifndef TESTS_COMPARE_H
#define TESTS_COMPARE_H

#include <stdint.h>

struct plan {
    uint64_t events;      /* at least so many in random runs, a fifth of them in quiet stretches, a tenth by steps,
                             four fifths as entries of two cars */
    unsigned machines;    /* for each of the 65,536 words */
    unsigned cell_stride; /* the lists of one in so many cells are asked for, DAA and DAS tried on these; 1 for all */
    unsigned text_stride; /* of the listings at random and the damaged ones, one in so many is tried; 1 for all */
    unsigned xref_stride; /* of the cross-references, replacements and damaged tables, one in so many; 1 for all */
    const char *trials;   /* the file that the program trials wrote */
    const char *book;     /* the example dispatcher's */
};

void compare_words(const struct plan *plan);
void compare_runs(const struct plan *plan);
void compare_stretches(const struct plan *plan);
void compare_changes(const struct plan *plan);
void compare_pins(void);
void compare_decimal(const struct plan *plan);
void compare_two(const struct plan *plan);
void compare_refusals(void);
void compare_lists(const struct plan *plan);
void compare_panel(void);
void compare_listings(const struct plan *plan);
void compare_xref(const struct plan *plan);
void compare_two_refusals(void);

#endif
