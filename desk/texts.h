/* The desk's text forms: a script's events, a program in assembly, a wiring, a level body. Each reader turns a file's
   text into the bytes that the library takes, or says the line that it cannot read and ends the command. What the
   bytes mean, and whether they are good, is left to the library. */
#ifndef DESK_TEXTS_H
#define DESK_TEXTS_H

#include "files.h"

struct bytes script_from_text(const char *path, const char *text);
struct bytes two_cars_from_text(const char *path, const char *text); /* a car and an event in every two bytes */
struct bytes program_from_text(const char *path, const char *text);
struct bytes wiring_from_text(const char *path, const char *text);
struct bytes level_from_text(const char *path, const char *text);

/* The events of a line that stands in no file, so many at the most. */
struct bytes events_from_line(const char *line, size_t most);

/* Reads a file of so many bytes at the most by one of these. A file with a 0 in it is no text. */
struct bytes read_text(const char *path, size_t most, struct bytes (*from_text)(const char *, const char *));

/* A script's bytes: the file itself where it is raw, else what its text comes to. */
struct bytes read_script(const char *path, bool raw, struct bytes (*from_text)(const char *, const char *));

/* Whether a word of a script is an event, without a number of times; then which. */
bool event_from(const char *word, size_t length, uint8_t *event);

/* The word of an event in a script, kept in `word` where it is not a name. */
enum { EVENT_WORD_ROOM = 4 };

const char *event_word(uint8_t event, char word[EVENT_WORD_ROOM]);

/* A number as it is written in all of these: 18, $12 or 0x12. Answers whether the text, up to its end, is one that
   is at most `most`. */
bool number_from(const char *text, size_t length, unsigned long long most, unsigned long long *number);

/* The same of a hex number, which may do without $ or 0x before it. */
bool hex_from_text(const char *text, unsigned long long most, unsigned long long *number);

extern const char script_help[], two_cars_help[], program_help[], wiring_help[], level_help[];

#endif
