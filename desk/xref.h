/* The cross-reference of a book's program: for every data, display and scan cell its writers, in tables that the
   library builds, answers from, and keeps up where a word is replaced. */
#ifndef DESK_XREF_H
#define DESK_XREF_H

#include "command.h"

/* The cells that have a list of writers. */
enum { KINDS = 3 };

struct kind {
    const char *name;
    unsigned first, last;
};

extern const struct kind kinds[KINDS];

/* What the writers are called that are kept once for all cells. */
extern const char pointed_name[];

struct xref {
    const struct book *book;
    uint16_t tables[GALHOVEIA_XREF_NUMBERS];
};

/* Says that the library's tables are not what they must be, and ends the command with FAULT. */
_Noreturn void bad_tables(const char *what);

void build_xref(struct xref *xref, const struct book *book);

/* A cell's writers, as the library answers from the tables: its own joined with those through $00F. A cell that has no
   such list is refused, which is said. */
bool ask_xref(const struct xref *xref, uint32_t cell, struct writers *writers);

/* The addresses that the tables keep under one cell: its own writers, or under GALHOVEIA_XREF_POINTED those of every
   cell through $00F. */
void take_kept(const struct xref *xref, unsigned cell, struct writers *kept);

/* The command desk xref. */
enum status work_xref(const struct command *command, int count, char **words);

#endif
