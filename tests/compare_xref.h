/* What the parts of the comparison of cross-references share: the cell that each word is kept under, said once more by
   the documents' words; programs and words drawn by it; a program with its tables; and a judge that walks tables. */
#ifndef TESTS_COMPARE_XREF_H
#define TESTS_COMPARE_XREF_H

#include "support.h"

/* What a word, or the word at an address, is kept under: an askable cell, $00F, or nothing. */
enum { POINTED = 0x00F, UNKEPT = MEMORY_BYTES };

/* ---- Words and programs (compare_xref_words.c) ---- */

/* Sorts all words by what they are kept under, and holds that against the trials of every word on every cell. */
void sort_words(const char *trials);

unsigned kept_under(uint16_t word);
uint16_t any_word_under(unsigned kept);
uint16_t any_unlisted(void);
unsigned any_askable(void);

/* A word on the cell's X that leaves every cell as it is. */
uint16_t any_idle_word(unsigned cell);

enum kind {
    ANY_WORDS, LISTED_WORDS, FEW_CELLS, ONLY_NOPS, ONE_CELL, ALL_POINTED, EVERY_CELL, SPARSE, MOSTLY_UNLISTED,
    EVERY_FORM, WHAT_MACHINES_RUN, KINDS
};

/* A few cells, $00F often among them, that the words of most kinds are about; the first of them is askable. */
enum { FEW = 4 };

extern unsigned few[FEW];

/* ---- A program and its tables ---- */

enum { BEYOND = 64 };

extern struct reference {
    uint8_t program[PROGRAM_BYTES];
    uint16_t tables[XREF_NUMBERS + BEYOND];
    size_t length;         /* how many numbers are lent; those beyond the cross-reference are anything */
    uint16_t under[WORDS]; /* what the tables keep each address under, as they were walked */
} reference;

#define REFERENCE ((struct lent_tables){reference.tables, reference.length})

/* The program becomes one of a kind, and the few cells others. */
void draw_program(enum kind kind);

/* Builds the program's tables by both sides over numbers of any kind, and judges them. */
void build_reference(void);

/* Follows the numbers from each of the 1,024 cells and notes where each address is met. Answers whether the addresses
   of each cell ascend to an end, none is met twice, and an address that is not met leads to none. */
bool walk(const uint16_t tables[XREF_NUMBERS], uint16_t under[WORDS]);

/* The addresses that the walk found under the cell or under $00F; answers their bytes. */
size_t found_for(unsigned cell, uint8_t addresses[PROGRAM_BYTES]);

/* The answer of a cell from the tables, galhoveia's and the second emulator's, and galhoveia's list of the program,
   against what the walk found. */
void ask(unsigned cell);

/* One in so many askable cells is asked. */
void ask_everywhere(unsigned stride);

extern unsigned long asked; /* cells, by ask */

/* ---- The other parts; one in so many of what they do is done ---- */

void compare_replacements(unsigned stride, unsigned cell_stride);
void compare_damaged_tables(unsigned stride);
void compare_xref_refusals(void);

#endif
