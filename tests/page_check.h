/* What a report's page is held to: rules of any page, and what the second emulator says of the same book and script. */
#ifndef TESTS_PAGE_CHECK_H
#define TESTS_PAGE_CHECK_H

#include "../second/second.h"
#include "page_tree.h"

/* What the report was asked for, and how what comes from outside is to be shown. */
struct asked {
    const uint8_t *book, *script;
    size_t book_len, script_len;
    uint64_t program, program_len, wiring, wiring_len, level, level_len; /* where the book has its bodies, how long */
    bool has_script, has_state;
    uint32_t stop, options;
    unsigned digits, columns;
    uint8_t memory[SECOND_CELLS], record[SECOND_RECORD_BYTES]; /* where the run begins, if a state is given */
    const char *state, *shown_title, *shown_book, *shown_script;
};

enum { ELEMENTS_MOST = 240, DIGITS = 2, STANDS_MOST = 40, CHANGES_MOST = 200, LINE_ROOM = 32 };

/* What an answer of the second emulator comes to. */
struct told {
    uint32_t number;
    uint64_t value;
};

struct stand {
    const char *place;
    uint64_t events, more, until;
    struct told picture_told, level_told;
    uint8_t picture[ELEMENTS_MOST];
    uint64_t elements;
    int32_t level;
    unsigned digit[DIGITS];
};

struct change {
    uint64_t event;
    int digit;
    unsigned before, after, address;
};

struct refused {
    const char *what;
    struct told told;
    uint64_t first, times; /* 0 times for what is asked once */
};

/* All that the page must tell, by the second emulator. */
struct expected {
    const uint8_t *program;
    unsigned cell[DIGITS], ground;
    struct told start, run;
    bool has_run;
    uint64_t done;
    uint32_t reason;
    unsigned end_pc;
    struct stand stand[STANDS_MOST];
    size_t stands;
    uint64_t looks, differing, unread, left_out;
    bool listed[DIGITS][SECOND_WORDS];
    uint64_t changed[DIGITS][SECOND_WORDS];
    struct change change[CHANGES_MOST];
    size_t changes;
    uint64_t all_changes;
    struct refused refused[8];
    size_t refusals;
    uint16_t tables[SECOND_XREF_NUMBERS];
    char line[SECOND_WORDS][LINE_ROOM];
};

void expect(struct expected *expected, const struct asked *asked);

/* Counts one check, and tells of it where it does not hold. */
void check(bool holds, const char *format, ...) __attribute__((format(printf, 2, 3)));

/* The text of an element, which must be there and be this. */
void check_text(const struct node *node, const char *what, const char *format, ...)
    __attribute__((format(printf, 3, 4)));

/* page_rules.c, page_words.c, page_stands.c, page_program.c */
void check_rules(struct node *root);
void check_words(struct node *root, const struct asked *asked, const struct expected *expected);
void check_stands(struct node *root, const struct asked *asked, const struct expected *expected);
void check_program(struct node *root, const struct asked *asked, const struct expected *expected);

/* A level as the page shows it: with a minus sign of its own. */
const char *shown_level(long level);

#endif
