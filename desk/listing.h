/* A program's listing, as the library writes it: the only place from which the desk has an instruction's text. */
#ifndef DESK_LISTING_H
#define DESK_LISTING_H

#include "galhoveia.h"

#include <stdbool.h>

/* Where a line has its mnemonic. */
enum { LINE_MNEMONIC = 9 };

/* What stands behind a line's word, with a 0 at its end. */
enum { TEXT_ROOM = GALHOVEIA_LINE_BYTES_MOST - LINE_MNEMONIC };

/* The word of NOP with which a program is filled up. */
enum { NOP_WORD = 0xFFFF };

/* Each address's line, with a 0 in place of its line feed. */
struct lines {
    char at[GALHOVEIA_WORDS][GALHOVEIA_LINE_BYTES_MOST];
};

/* Says that the library's lines are not what they must be, and ends the command with FAULT. */
_Noreturn void bad_listing(const char *what);

/* Writes the listing of a program of 8,192 bytes into room for any, and answers its length. */
size_t write_listing(const uint8_t *program, uint8_t text[GALHOVEIA_LISTING_BYTES_MOST]);

/* The same, line by line. */
void list_lines(const uint8_t *program, struct lines *lines);

/* The lines of 4,096 words from `first` on, ascending, so that sixteen such listings have every word. */
void list_words(unsigned first, struct lines *lines);

/* Whether a line's word is no instruction. */
bool is_data(const char *line);

/* Where a line's first operand begins; its end if it has none. */
const char *first_operand(const char *line);

#endif
