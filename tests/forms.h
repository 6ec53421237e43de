/* The trials of every word on every cell, and a program with every form that could touch a cell or miss it narrowly:
   what the comparison of the lists and the program that makes the trials share. */
#ifndef TESTS_FORMS_H
#define TESTS_FORMS_H

#include "support.h"

/* A bit for each cell, in a row for each word: the word, executed in some state, changed the cell. */
enum { TRIAL_BYTES = MEMORY_BYTES / 8 };

typedef uint8_t trial_row[TRIAL_BYTES];

static inline bool trial_of(trial_row *trials, uint16_t word, unsigned cell)
{
    return trials[word][cell / 8] >> cell % 8 & 1;
}

/* The rows of all 65,536 words from a file that the program trials wrote; the caller frees them. */
trial_row *read_trials(const char *path);

/* Fills the program, and answers how many of its words are about the cell; the others are NOP, but for two stores at
   $800 and $FFF. */
unsigned program_about(uint8_t program[PROGRAM_BYTES], unsigned cell);

#endif
