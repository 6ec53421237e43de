/* What the two parts of the comparison of listings share: the lines of all words, texts made of them, and a judge of
   texts beside the two readers. */
#ifndef TESTS_COMPARE_LISTINGS_H
#define TESTS_COMPARE_LISTINGS_H

#include "support.h"

#include "../second/instruction.h"

/* The forms of a line: one for each mnemonic, and the mark of an unlisted word. */
enum { DATA_FORM = MNEMONICS, FORMS };

int form_of(uint16_t word);
uint16_t any_word_of(int form);

/* The line of a word at an address; answers its length. */
size_t put_line(uint8_t at[LINE_BYTES_MOST], unsigned address, uint16_t word);

/* A text with some room for bytes that are added to it. */
enum { TEXT_ROOM = 2 * LISTING_BYTES_MOST };

struct text {
    size_t length;
    size_t start[WORDS + 1]; /* where each line begins, and where the last one ends */
    uint8_t bytes[TEXT_ROOM];
};

/* The text of the first so many words of a program; of all, it is the program's listing. */
void text_of(struct text *text, const uint8_t *program, unsigned words);

/* Reads the text by both readers and holds the answer, the value, the words and the room beyond them to the judge,
   which takes line after line by its word's digits and holds it against the line that was written for that word. */
uint32_t read_text(struct lent text, struct lent room);

enum kind { ANY_WORDS, LISTED_WORDS, UNLISTED_WORDS, ALL_FORMS_ALIKE, MOSTLY_NOPS, WHAT_MACHINES_RUN, KINDS };

void any_program(uint8_t program[PROGRAM_BYTES], enum kind kind);

/* A line of which the items are damaged: another word's, its own address and word with another word's mnemonic and
   operands, its own operands with another mnemonic, two neighbours swapped, an item lost, an item twice. */
enum item_damage { OTHER_LINE, OTHER_MEANING, OTHER_MNEMONIC, ITEMS_SWAPPED, ITEM_LOST, ITEM_TWICE, ITEM_DAMAGES };

struct line {
    size_t length;
    uint8_t bytes[2 * LINE_BYTES_MOST];
};

struct line damaged_line(enum item_damage damage, unsigned address, uint16_t word);

/* Damaged texts, in one in so many of the places where they are tried. */
void compare_damaged_listings(unsigned stride);

#endif
