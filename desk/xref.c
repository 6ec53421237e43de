/* The cross-reference of a book's program. */
#include "xref.h"

#include <stdio.h>

const struct kind kinds[KINDS] = {{"data", 0x020, 0x16F}, {"display", 0x300, 0x348}, {"scan", 0x358, 0x36D}};

const char pointed_name[] = "through $00F, writers of every data, display and scan cell";

/* ---- The tables ---- */

_Noreturn void bad_tables(const char *what)
{
    end_in_fault("the library's cross-reference: %s", what);
}

void build_xref(struct xref *xref, const struct book *book)
{
    uint64_t value = 0;
    uint32_t refusal = galhoveia_xref_build(book->program.at, book->program.length, xref->tables,
                                            GALHOVEIA_XREF_NUMBERS, &value);

    if (refusal != GALHOVEIA_DONE) {
        say_refusal("the cross-reference", refusal, value);
        bad_tables("a program was refused");
    }
    xref->book = book;
}

bool ask_xref(const struct xref *xref, uint32_t cell, struct writers *writers)
{
    const struct bytes *program = &xref->book->program;
    uint8_t addresses[GALHOVEIA_PROGRAM_BYTES];
    uint64_t count = 0, value = 0;
    uint32_t refusal = galhoveia_xref_list(program->at, program->length, xref->tables, GALHOVEIA_XREF_NUMBERS, cell,
                                           addresses, sizeof addresses, &count, &value);

    if (refusal != GALHOVEIA_DONE)
        say_refusal("the list of writers", refusal, value);
    if (refusal != GALHOVEIA_DONE && refusal != GALHOVEIA_ASKED_CELL)
        bad_tables("its own tables were refused");
    if (refusal == GALHOVEIA_DONE)
        take_writers(writers, addresses, count);
    return refusal == GALHOVEIA_DONE;
}

void take_kept(const struct xref *xref, unsigned cell, struct writers *kept)
{
    const uint16_t *next = xref->tables + GALHOVEIA_MEMORY_BYTES; /* behind the number of each cell */

    kept->count = 0;
    for (unsigned address = xref->tables[cell]; address != GALHOVEIA_XREF_NONE; address = next[address]) {
        if (address >= GALHOVEIA_WORDS || next[address] <= address)
            bad_tables("the addresses under a cell do not ascend");
        kept->address[kept->count++] = (uint16_t)address;
    }
}

/* ---- What is shown ---- */

static bool show_cell(const struct xref *xref, uint32_t cell)
{
    struct writers writers;

    if (!ask_xref(xref, cell, &writers))
        return false;
    show_head(cell, cell_meaning(xref->book, cell), writers.count);
    printf("\n");
    show_list(xref->book, &writers);
    return true;
}

/* A cell's own writers; of those through $00F, which are shown once for all cells, only how many there are. */
static void show_own(const struct book *book, unsigned cell, const struct writers *own, size_t pointed, bool with_lines)
{
    size_t joined = own->count + pointed;

    show_head(cell, cell_meaning(book, cell), joined);
    if (joined > 0)
        printf(", %zu of its own and %zu through $00F", own->count, pointed);
    printf("\n");
    if (with_lines)
        show_list(book, own);
}

/* The cells of one kind that have writers of their own, and the level's digits whether they have any or not. */
static void show_kind(const struct xref *xref, const struct kind *kind, size_t pointed, bool with_lines)
{
    struct writers own;
    unsigned all = kind->last - kind->first + 1, cells = 0;
    size_t kept = 0;

    for (unsigned cell = kind->first; cell <= kind->last; cell++) {
        take_kept(xref, cell, &own);
        cells += own.count > 0;
        kept += own.count;
    }
    printf("%s cells $%03X-$%03X: ", kind->name, kind->first, kind->last);
    if (cells == 0)
        printf("none of %u has writers of its own\n", all);
    else
        printf("%u of %u %s, %zu in all\n", cells, all,
               cells == 1 ? "has writers of its own" : "have writers of their own", kept);
    for (unsigned cell = kind->first; cell <= kind->last; cell++) {
        take_kept(xref, cell, &own);
        if (own.count > 0 || cell_meaning(xref->book, cell)[0] != 0)
            show_own(xref->book, cell, &own, pointed, with_lines);
    }
}

static void show_all(const struct xref *xref, bool with_lines)
{
    struct writers pointed;

    take_kept(xref, GALHOVEIA_XREF_POINTED, &pointed);
    if (pointed.count == 0)
        printf("%s: none\n", pointed_name);
    else
        printf("%s: %zu\n", pointed_name, pointed.count);
    if (with_lines)
        show_list(xref->book, &pointed);
    for (int at = 0; at < KINDS; at++)
        show_kind(xref, &kinds[at], pointed.count, with_lines);
}

enum status work_xref(const struct command *command, int count, char **words)
{
    const char *path[1], *cell = NULL;
    bool all = false, done = true;
    const struct option known[] = {{"--cell", &cell, NULL}, {"--all", NULL, &all}, {NULL, NULL, NULL}};
    uint32_t asked = 0;
    struct book book;
    struct xref xref;

    take_words(command, count, words, known, path, 1);
    if (cell != NULL && all)
        wrong_use(command, "--cell asks for one cell, so not with", "--all");
    if (cell != NULL)
        asked = hex_from(command, cell);
    if (!read_book(path[0], &book))
        return REFUSED;
    build_xref(&xref, &book);
    if (cell != NULL)
        done = show_cell(&xref, asked);
    else
        show_all(&xref, all);
    give_back(book.file.at);
    return done ? DONE : REFUSED;
}
