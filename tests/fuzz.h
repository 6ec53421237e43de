/* Bad input in bulk: inputs drawn by changing good ones, or from nothing, and given to everything that the desk reads.

   A unit is UNIT_INPUTS inputs of one kind, drawn from the unit's own seed, so that one can be looked at by itself. */
#ifndef TESTS_FUZZ_H
#define TESTS_FUZZ_H

#include "chance.h"

#include <stdbool.h>
#include <stddef.h>
#include <stdint.h>

enum { UNIT_INPUTS = 100, INPUT_MOST = 1 << 17 };

/* ---- What is drawn ---- */

/* An input; a 0 stands behind its last byte. */
struct input {
    uint8_t at[INPUT_MOST + 1];
    size_t length;
};

/* What inputs of a kind are made of: a good one, and words that mean something there, with a blank between them. */
struct sample {
    const uint8_t *good;
    size_t length;
    const char *words;
};

/* The good one or a part of it, changed in a few places, or, now and then, nothing but words or bytes at random. */
void draw_text(struct input *input, const struct sample *sample);

/* Cuts rows of digits down, since long ones let events happen for minutes. Of texts that are drawn nearly all are. */
void shorten_numbers(struct input *input);

/* The good one with some bytes changed, lost or added. */
void draw_bytes(struct input *input, const struct sample *sample);

/* One of the words, kept until the next is drawn. */
const char *draw_word(const char *words);

/* ---- What is done with it ---- */

/* What came of the inputs of a kind, so that it can be seen that some are taken and some are not. */
struct outcome {
    unsigned long taken, refused;
};

struct kind_of_input {
    const char *name;
    unsigned weight; /* how many units in so many as the weights come to */
    void (*input)(struct outcome *outcome);
    void (*begin)(void); /* before the first input of a unit; NULL for nothing */
    bool all_taken;      /* none is refused, whatever it is */
};

extern const struct kind_of_input text_kinds[], file_kinds[], line_kinds[]; /* each ended by one without a name */

/* Reads the examples and makes the files that inputs are changed from, in the folder where it stands. */
void prepare_texts(const char *examples);
void prepare_files(void);
void prepare_lines(const char *examples);

/* Of the folder's files no kept.* may be harmed (said of what was done), and none but these and copy.* stays. What
   --force may write over are copies, which are made again; where nothing was done, they may not be harmed either. */
void look_at_folder(const char *said);
void restore_copies(void);

/* A file in the folder. */
void put_file(const char *name, const uint8_t *bytes, size_t length);

/* Works a command line of the desk, changed so that no word names a file outside of the folder, and none but a copy is
   written over by force; and judges how it ended. */
void work_words(struct outcome *outcome, const char *words);

/* Says what must never be, and ends the worker. */
_Noreturn void finding(const char *format, ...) __attribute__((format(printf, 1, 2)));

#endif
