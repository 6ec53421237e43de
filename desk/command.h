/* What a command is called with: its words, the options among them, and what these say. What is wrong with them is said
   with the command's usage, and the command ends with the status of wrong use. */
#ifndef DESK_COMMAND_H
#define DESK_COMMAND_H

#include "panel.h"

struct command {
    const char *name;
    const char *usage;
    const char *about;
    const char *help;         /* what the usage leaves open; NULL for nothing */
    const char *const *texts; /* descriptions of text forms, ended by NULL; NULL for none */
    enum status (*work)(const struct command *command, int count, char **words);
    void (*list)(FILE *to); /* what the help lists behind its text; NULL for nothing */
};

struct option {
    const char *name;
    const char **value; /* NULL for an option that takes none */
    bool *given;        /* NULL for an option with a value */
};

_Noreturn void wrong_use(const struct command *command, const char *what, const char *word);

/* Parts the words of a command line into options and the others, which must be `wanted` in number. */
void take_words(const struct command *command, int count, char **words, const struct option *options,
                const char **others, int wanted);

/* A hex number with or without $ or 0x before it, as addresses are given on the command line. */
uint32_t hex_from(const struct command *command, const char *text);
uint32_t decimal_from(const struct command *command, const char *text, uint32_t most);

/* How a picture is drawn: as usual where a word is NULL. */
struct look look_from(const struct command *command, struct look usual, const char *digits, const char *columns);

/* Where a chip's run begins and stops, as the words have it; NULL where they leave it open. */
struct course {
    const char *state, *options, *stop;
};

/* Judges a course before any file is read, and answers its stop address. */
uint32_t stop_from(const struct command *command, const struct course *course);

/* The state that the course begins with: that of its file, or a fresh one. Answers whether there is one; a refusal is
   said of `fresh`. */
bool start_from(const struct command *command, const struct course *course, const char *fresh, struct state *start);

/* What can be found wrong, before anything is read, with two files that are to be written; NULL for one that is not. */
void may_write_both(const struct command *command, const char *one, const char *other, bool force,
                    const char *not_both_into);

#endif
