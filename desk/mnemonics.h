/* The chip's mnemonics, learned from the lines that the library writes for all 65,536 words: what each is called, what
   it takes, and which word it comes to. */
#ifndef DESK_MNEMONICS_H
#define DESK_MNEMONICS_H

#include "listing.h"

enum { OPERANDS_MOST = 2, FORMS_MOST = 64, WORDS_ALL = 65536 };

struct operand {
    int digits;    /* as many as the listing has */
    unsigned most; /* the largest number in any line */
};

struct form {
    char name[TEXT_ROOM];
    int count;
    struct operand operand[OPERANDS_MOST];
};

/* An instruction as its line has it, and the word of that line. */
struct instruction_line {
    char text[TEXT_ROOM];
    uint16_t word;
};

struct mnemonics {
    struct form form[FORMS_MOST];
    int forms;
    struct instruction_line line[WORDS_ALL]; /* the words that are instructions, in the order of their texts */
    size_t lines;
};

/* They are learned when first asked for. */
const struct mnemonics *chip_mnemonics(void);

/* NULL for an unknown mnemonic; capitals and small letters are one. */
const struct form *form_named(const struct mnemonics *known, const char *name, size_t length);

/* Whether a text is an instruction as a line has it; then the word of that line. */
bool word_of(const struct mnemonics *known, const char *text, uint16_t *word);

#endif
