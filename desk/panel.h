/* Books and machine states: read from files, written to them, and shown. */
#ifndef DESK_PANEL_H
#define DESK_PANEL_H

#include "files.h"
#include "listing.h"

#include <stdio.h>

/* The number in two bytes, high byte first. */
unsigned two(const uint8_t *bytes);

struct state {
    uint8_t memory[GALHOVEIA_MEMORY_BYTES];
    uint8_t record[GALHOVEIA_RECORD_BYTES];
};

void read_state(const char *path, struct state *state);
void write_state(const char *path, const struct state *state, bool force);

/* Writes the state after a run, and says so. It is not written over `taken`, the file of `what`, which the command has
   written before; NULL for none. */
void save_state(const char *path, const struct state *state, bool force, const char *taken, const char *what);

struct book {
    struct bytes file;
    struct bytes program, wiring, level; /* within the file */
    struct lines lines;                  /* the program's listing */
};

/* Each of these answers whether the library did it; a refusal is said, of `what` for a fresh machine. The caller gives
   back the book's file. */
bool read_book(const char *path, struct book *book);
bool make_fresh(struct state *state, uint32_t options, const char *what);

/* A fresh machine. Answers 0 or the refusal, which is not said. */
uint32_t ask_fresh(struct state *state, uint32_t options, uint64_t *value);

/* Puts three bodies together into a book and says so. Answers whether the library did it; a refusal is said. */
bool write_book(const char *path, struct bytes program, struct bytes wiring, struct bytes level, bool force);

/* The level's digits, the cell of each, and what is said behind that cell's number. */
enum digit { HIGH, LOW, DIGITS };

unsigned level_cell(const struct book *book, enum digit digit);
extern const char *const digit_meaning[DIGITS];

/* What is said behind a cell's number, nothing where it has no digit of the level. */
const char *cell_meaning(const struct book *book, uint32_t cell);

/* The addresses of the instructions that can change a cell, ascending. Answers 0 or the refusal, which is not said; or
   whether there is none, which is said. */
struct writers {
    uint16_t address[GALHOVEIA_WORDS];
    size_t count;
};

uint32_t list_writers(const struct book *book, uint32_t cell, struct writers *writers, uint64_t *value);
bool ask_writers(const struct book *book, uint32_t cell, struct writers *writers);

/* The same from so many bytes that the library wrote, two for each address. */
void take_writers(struct writers *writers, const uint8_t *addresses, uint64_t bytes);

/* How a picture is drawn. */
struct look {
    bool raw;
    uint32_t digits, columns;
};

/* Fails where the wiring has fewer elements than the digits to be drawn need. */
void may_draw(const struct book *book, struct look look);

/* What the panel shows, a byte for each element. Answers 0 or the refusal, which is not said. */
struct picture {
    uint8_t at[GALHOVEIA_ELEMENTS_MOST];
    uint64_t count;
};

uint32_t ask_picture(const struct book *book, const struct state *state, struct picture *picture, uint64_t *value);

/* The level that the panel stands at, and its two digits. Answers 0 or the refusal, which is not said. */
struct level {
    long stop;
    unsigned digit[DIGITS], ground;
};

uint32_t ask_level(const struct book *book, const struct state *state, struct level *level, uint64_t *value);

bool show_picture(const struct book *book, const struct state *state, const char *state_name, struct look look);
bool show_level(FILE *to, const struct book *book, const struct state *state, const char *state_name);
bool show_writers(const struct book *book, uint32_t cell, const char *meaning);
bool show_level_writers(const struct book *book);

/* Whether the instruction at an address in a list of writers reaches the cell through $00F. */
bool is_through_pointer(const struct book *book, unsigned address);

/* The rest of a line: the listing's line of an address. Of one in a list of writers it is also said whether it names
   $00F, so that the pointer tells which cell it changes. */
void show_instruction(const struct book *book, unsigned address);
void show_writer(const struct book *book, unsigned address);

/* How a list of writers is shown: the beginning of a line that tells how many can change a cell, and then a line for
   each. */
void show_head(uint32_t cell, const char *meaning, size_t count);
void show_list(const struct book *book, const struct writers *writers);

/* What the chip does in a state: running, asleep in HALT, asleep in STOP. */
const char *mode_words(const struct state *state);

/* How many words of the program are NOP, and how many are no instruction. */
struct counted_words {
    unsigned blank, unlisted;
};

struct counted_words count_words(const struct book *book);
bool is_nop(const struct book *book, unsigned address);

void show_book(const char *path, const struct book *book);
void show_processor(const struct state *state); /* PC, AC, CY and mode, as a part of a line */
void show_registers(const struct state *state);

#endif
