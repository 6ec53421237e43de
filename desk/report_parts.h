/* What a report is made of, and its sections in the order of the page. */
#ifndef DESK_REPORT_PARTS_H
#define DESK_REPORT_PARTS_H

#include "page.h"
#include "plural.h"
#include "stops.h"
#include "watch.h"
#include "xref.h"

/* The changes that have a row of their own; those after them are counted. */
enum { CHANGES_MOST = 200 };

struct report {
    const char *book_path, *script_path, *title; /* NULL for no script, or no title given */
    int count;                                   /* the command line's words behind desk report */
    char **words;
    struct look look;
    struct book book;
    struct xref xref;
    struct writers writers[DIGITS];

    /* Of a script: */
    const char *state_path; /* NULL for a fresh chip, with these options */
    uint32_t options, stop;
    struct answer start_answer, run_answer;
    struct run run;
    struct stops stops;
    struct watch watch;
    struct cell_change changes[CHANGES_MOST];
    size_t changes_kept;

    bool linked[GALHOVEIA_WORDS]; /* addresses that the page links to, so that each has a line of its own */
    struct page page;
};

/* Whether the script's run moved: it was refused neither its start nor before its first event. */
bool has_run(const struct report *report);

/* The section headings, and the ids that the contents link to. */
struct section {
    const char *id, *heading;
    void (*put)(struct report *report);
};

void put_glance(struct report *report);   /* report_words.c; in front of the sections */
void put_book(struct report *report);
void put_run(struct report *report);      /* report_run.c */
void put_writers(struct report *report);  /* report_cells.c */
void put_changes(struct report *report);
void put_xref(struct report *report);
void put_refusals(struct report *report); /* report_words.c */
void put_proved(struct report *report);
void put_made(struct report *report);
void put_listing(struct report *report);  /* report_listing.c */

/* An address as a link into the listing, and the listing's line of an address as such a link. */
void put_address(struct report *report, unsigned address);
void put_line(struct report *report, unsigned address);

/* The stylesheet, rule by rule, ended by NULL. */
extern const char *const report_style[];

#endif
