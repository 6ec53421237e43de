/* The words of the debugger, and what stands behind them in a line. */
#ifndef DESK_DEBUG_WORDS_H
#define DESK_DEBUG_WORDS_H

#include "debug.h"
#include "names.h"

enum { ARGUMENTS_MOST = 3 };

struct typed;

struct word {
    const char *name, *brief; /* brief: NULL for a word that has no short form */
    const char *usage, *about, *tells; /* about: a line; tells: all of it */
    size_t least, most; /* as many arguments */
    bool is_run;        /* an empty line does it again */
    void (*work)(struct debugger *debugger, const struct typed *typed);
};

/* A word as it was typed, with its arguments. */
struct typed {
    const struct word *word;
    char *argument[ARGUMENTS_MOST];
    size_t count;
};

/* Whether a byte is a control character that no line has. */
bool is_control(char letter);

/* Says how an argument is wrong and how the word is used, and ends the work. */
_Noreturn void misused(const struct typed *typed, const char *what, const char *argument);

/* Each reads an argument; what is none of its kind is said and ends the work. */
uint64_t number_at(const struct debugger *debugger, const struct typed *typed, size_t at);
unsigned address_at(const struct typed *typed, size_t at);

/* A cell in hex or by a name of the data sheet; or one bit of it, by its name. */
struct asked {
    unsigned cell;
    unsigned bit; /* BITS for all of them */
};

struct asked cell_at(const struct typed *typed, size_t at);
struct asked cell_from(const struct typed *typed, const char *text);

/* Whether an argument is this text. */
bool is_argument(const struct typed *typed, size_t at, const char *text);

/* Whether the library takes a state, or every byte of these events; a refusal is said of `what` (debug_judge.c). */
bool is_state(const struct book *book, const struct state *state, const char *what);
bool are_events(const struct debugger *debugger, struct bytes events, const char *what);

/* What reading a cell gives: of a port the pins and the latch by its control bits. */
unsigned reads_as(const struct state *state, unsigned cell);

/* The bits that the library lets a cell of memory keep; 0 for a cell that keeps nothing. */
unsigned bits_kept(const struct debugger *debugger, unsigned cell);

/* What the words do. debug_run.c: */
void do_step(struct debugger *debugger, const struct typed *typed);
void do_next(struct debugger *debugger, const struct typed *typed);
void do_run_word(struct debugger *debugger, const struct typed *typed);
void do_to(struct debugger *debugger, const struct typed *typed);
void do_events(struct debugger *debugger, const char *line);

/* debug_until.c: */
void do_until(struct debugger *debugger, const struct typed *typed);

/* debug_places.c: */
void do_mark(struct debugger *debugger, const struct typed *typed);
void do_back(struct debugger *debugger, const struct typed *typed);
void do_marks(struct debugger *debugger, const struct typed *typed);
void do_save(struct debugger *debugger, const struct typed *typed);
void do_load(struct debugger *debugger, const struct typed *typed);

/* debug_show.c: */
void do_registers(struct debugger *debugger, const struct typed *typed);
void do_show(struct debugger *debugger, const struct typed *typed);

/* debug_book.c: */
void do_panel(struct debugger *debugger, const struct typed *typed);
void do_level(struct debugger *debugger, const struct typed *typed);
void do_list(struct debugger *debugger, const struct typed *typed);
void do_writers(struct debugger *debugger, const struct typed *typed);
void do_script(struct debugger *debugger, const struct typed *typed);

#endif
