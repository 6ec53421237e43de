/* A debugger of a book's chip: it is told words, line by line, and answers each. */
#ifndef DESK_DEBUG_H
#define DESK_DEBUG_H

#include "command.h"

enum { LINE_MOST = 4096, MARKS_MOST = 64, MARK_NAME_MOST = 31 };

/* The most events that one line may ask for, as with a script; and of those that are typed in it. */
enum { EVENTS_MOST = 1 << 30, TYPED_MOST = 1 << 24 };

/* Where a session stands: what the chip is, how many events happened to it, and how many of these were the script's. */
struct place {
    struct state state;
    uint64_t done;
    size_t next;
};

struct mark {
    char name[MARK_NAME_MOST + 1];
    struct place place;
};

struct debugger {
    const struct book *book;
    struct bytes script;         /* of length 0 where there is none */
    const char *book_path, *script_path; /* files that are not written over; NULL for none */
    struct look look;
    bool at_terminal; /* an empty line does the last run again */
    uint64_t most;    /* the most events that one line may ask for */
    struct place start, now;
    struct mark mark[MARKS_MOST]; /* the newest last */
    size_t marks;
    bool headed;               /* the last answer was a step's, so that the next needs no head */
    bool over;                 /* quit was said */
    char again[LINE_MOST + 1]; /* the last line, where it was a run; else empty */
};

/* Begins a session with a chip in this state. The book and the script are the caller's, and stay while the session goes
   on. Answers whether the library takes the state and every byte of the script; a refusal is said, of these names. */
bool begin_debugging(struct debugger *debugger, const struct book *book, struct bytes script, const char *script_name,
                     const struct state *start, const char *start_name);

/* Does what a line asks and says how that went; whatever it is, the session goes on until quit. The line has so many
   bytes and a 0 behind them, and is written over. Answers whether the session goes on. */
bool debug_line(struct debugger *debugger, char *line, size_t length);

/* A line that tells where the session stands. */
void show_where(const struct debugger *debugger);

/* What the words are, a line for each. */
void list_debug_words(FILE *to);

/* The command desk debug. */
enum status work_debug(const struct command *command, int count, char **words);

#endif
