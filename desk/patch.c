/* One word of a book's program replaced, and which cells have other writers then. */
#include "patch.h"

#include "plural.h"
#include "xref.h"

#include <stdio.h>
#include <string.h>

/* A book before and after, each with the cross-reference of its program. */
struct patch {
    unsigned address;
    struct book before, after;
    struct xref xref_before, xref_after;
    uint8_t program[GALHOVEIA_PROGRAM_BYTES]; /* the one after */
};

/* ---- The replacement ---- */

/* The library has kept the tables up; here they are held against tables built afresh, and the program against the one
   before. */
static void look_for_faults(const struct patch *patch, uint16_t word)
{
    struct xref fresh;
    uint8_t wanted[GALHOVEIA_PROGRAM_BYTES];

    memcpy(wanted, patch->before.program.at, sizeof wanted);
    wanted[2 * patch->address] = (uint8_t)(word >> 8);
    wanted[2 * patch->address + 1] = (uint8_t)word;
    if (memcmp(patch->program, wanted, sizeof wanted) != 0)
        bad_tables("a replacement leaves another program than it must");
    build_xref(&fresh, &patch->after);
    if (memcmp(patch->xref_after.tables, fresh.tables, sizeof fresh.tables) != 0)
        bad_tables("a replacement leaves other tables than a fresh build gives");
}

/* Answers whether the library did it; that it refused the address is said. */
static bool replace(struct patch *patch, uint32_t address, uint16_t word)
{
    char what[sizeof "the word at $FFFFFFFF"];
    uint64_t value = 0;
    uint32_t refusal;

    build_xref(&patch->xref_before, &patch->before);
    memcpy(patch->program, patch->before.program.at, sizeof patch->program);
    patch->xref_after = patch->xref_before;
    refusal = galhoveia_xref_replace(patch->program, sizeof patch->program, patch->xref_after.tables,
                                     GALHOVEIA_XREF_NUMBERS, address, word, &value);
    if (refusal != GALHOVEIA_DONE) {
        snprintf(what, sizeof what, "the word at $%03lX", (unsigned long)address);
        say_refusal(what, refusal, value);
        if (refusal != GALHOVEIA_FIELD)
            bad_tables("its own tables were refused");
        return false;
    }
    patch->address = address;
    patch->after = patch->before;
    patch->after.program.at = patch->program;
    list_lines(patch->program, &patch->after.lines);
    patch->xref_after.book = &patch->after;
    look_for_faults(patch, word);
    return true;
}

/* ---- What it comes to ---- */

/* A list of writers before and after. */
struct change {
    struct writers before, after;
};

static bool is_change(const struct change *change)
{
    return change->before.count != change->after.count
           || memcmp(change->before.address, change->after.address,
                     change->before.count * sizeof change->before.address[0]) != 0;
}

static void ask_change(const struct patch *patch, unsigned cell, struct change *change)
{
    if (!ask_xref(&patch->xref_before, cell, &change->before) || !ask_xref(&patch->xref_after, cell, &change->after))
        bad_tables("a cell that has a list was refused");
}

static void take_kept_change(const struct patch *patch, unsigned cell, struct change *change)
{
    take_kept(&patch->xref_before, cell, &change->before);
    take_kept(&patch->xref_after, cell, &change->after);
}

/* Both lists in one, ascending. The address whose word was replaced has a line of its own in each. */
static void show_change(const struct patch *patch, const struct change *change)
{
    const struct writers *before = &change->before, *after = &change->after;
    size_t old = 0, new = 0;

    printf("%zu instruction%s before, %zu now\n", before->count, plural(before->count), after->count);
    for (unsigned address = 0; address < GALHOVEIA_WORDS; address++) {
        bool was = old < before->count && before->address[old] == address;
        bool is = new < after->count && after->address[new] == address;
        bool stays = was && is && address != patch->address;

        old += was;
        new += is;
        if (was) {
            printf("%s", stays ? "    " : "  - ");
            show_writer(&patch->before, address);
        }
        if (is && !stays) {
            printf("  + ");
            show_writer(&patch->after, address);
        }
    }
}

/* How many cells have another list than before. Answers whether any has. */
static bool show_cells_changed(const struct patch *patch)
{
    struct change change;
    unsigned changed = 0, all = 0;

    for (int at = 0; at < KINDS; at++)
        for (unsigned cell = kinds[at].first; cell <= kinds[at].last; cell++) {
            ask_change(patch, cell, &change);
            changed += is_change(&change);
            all++;
        }
    if (changed == 0)
        printf("no cell has other writers than before\n");
    else
        printf("%u of %u cells %s other writers than before (- gone, + new):\n", changed, all,
               changed == 1 ? "has" : "have");
    return changed > 0;
}

/* The list of a cell under which other addresses are kept than before. Of any other cell it has changed only by the
   writers through $00F, which are shown once for all. */
static void show_cell_change(const struct patch *patch, unsigned cell)
{
    struct change change;

    take_kept_change(patch, cell, &change);
    if (!is_change(&change))
        return;
    ask_change(patch, cell, &change);
    printf("cell $%03X%s: ", cell, cell_meaning(&patch->after, cell));
    show_change(patch, &change);
}

static void show_lists_changed(const struct patch *patch)
{
    struct change pointed;

    take_kept_change(patch, GALHOVEIA_XREF_POINTED, &pointed);
    if (is_change(&pointed)) {
        printf("%s: ", pointed_name);
        show_change(patch, &pointed);
    }
    for (int at = 0; at < KINDS; at++)
        for (unsigned cell = kinds[at].first; cell <= kinds[at].last; cell++)
            show_cell_change(patch, cell);
}

static void show_patch(const struct patch *patch)
{
    printf("before: ");
    show_instruction(&patch->before, patch->address);
    printf("now:    ");
    show_instruction(&patch->after, patch->address);
    if (show_cells_changed(patch))
        show_lists_changed(patch);
}

/* ---- The command ---- */

/* A word has all its digits: one that was left out would make another word. */
static uint16_t word_from(const struct command *command, const char *text)
{
    bool marked = strncmp(text, "0x", 2) == 0 || strncmp(text, "0X", 2) == 0;
    const char *digits = text + (text[0] == '$' ? 1 : marked ? 2 : 0);

    if (strspn(digits, "0123456789ABCDEFabcdef") != 4 || digits[4] != 0)
        wrong_use(command, "a word has four hex digits, not", text);
    return (uint16_t)hex_from(command, text);
}

enum status work_patch(const struct command *command, int count, char **words)
{
    const char *others[4];
    bool force = false, done;
    const struct option known[] = {{"--force", NULL, &force}, {NULL, NULL, NULL}};
    struct patch patch;
    uint32_t address;
    uint16_t word;

    take_words(command, count, words, known, others, 4);
    address = hex_from(command, others[1]);
    word = word_from(command, others[2]);
    may_write(others[3], force);
    if (!read_book(others[0], &patch.before))
        return REFUSED;
    done = replace(&patch, address, word);
    if (done) {
        show_patch(&patch);
        done = write_book(others[3], patch.after.program, patch.after.wiring, patch.after.level, force);
    }
    give_back(patch.before.file.at);
    return done ? DONE : REFUSED;
}
