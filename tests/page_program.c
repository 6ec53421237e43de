/* What a report says of the program: its listing, the writers of the level cells, who did write them, and the
   cross-reference, held against the second emulator's. */
#include "../second/instruction.h"
#include "page_check.h"

#include <inttypes.h>
#include <stdio.h>
#include <stdlib.h>
#include <string.h>

enum { HALF = 0x800, POINTED = 0x00F, NOP_WORD = 0xFFFF };

static uint16_t word_at(const struct expected *expected, unsigned address)
{
    return (uint16_t)(expected->program[2 * address] << 8 | expected->program[2 * address + 1]);
}

/* A link to an address, and its text. */
static void check_link(const struct node *link, const char *what, unsigned address, const char *text)
{
    const char *href = link != NULL ? value_of(link, "href") : NULL;
    char wanted[16];

    snprintf(wanted, sizeof wanted, "#a%03X", address);
    check(href != NULL && strcmp(href, wanted) == 0, "%s: a link to %s is due", what, wanted);
    check_text(link, what, "%s", text);
}

/* ---- The listing ---- */

/* Where a word's operand leads to: SECOND_WORDS for nowhere. */
static unsigned target_of(const struct expected *expected, unsigned address)
{
    struct instruction instruction;
    uint64_t value;

    if (instruction_read(word_at(expected, address), &instruction, &value) != 0
        || instruction_shape(instruction.mnemonic) != SHAPE_TARGET)
        return SECOND_WORDS;
    return instruction.field[0] | (instruction.mnemonic == JMP ? 0 : address & HALF);
}

static void check_line(struct node *item, const struct expected *expected, unsigned address)
{
    struct node *code = find(item, "code", NULL), *link = find(item, "a", NULL), *mark = find(item, "span", "mark");
    const bool high = expected->listed[0][address], low = expected->listed[1][address];
    const unsigned target = target_of(expected, address);
    char operand[8];

    check_text(code, "a line of the listing", "%s", expected->line[address]);
    if (target < SECOND_WORDS) {
        snprintf(operand, sizeof operand, "%s", strrchr(expected->line[address], ' ') + 1);
        check_link(link, "an operand", target, operand);
    } else {
        check(link == NULL, "%03X leads nowhere, but is a link", address);
    }
    if (high || low)
        check_text(mark, "a writer's mark", "%s", high && low ? "high, low" : high ? "high" : "low");
    else
        check(mark == NULL, "%03X is no writer, but is marked", address);
}

/* A line for several NOPs. Answers the address behind them. */
static unsigned check_fold(struct node *item, const struct expected *expected, unsigned address)
{
    unsigned first = 0, last = 0, words = 0;

    check(sscanf(text_of(item), "%X\u2013%X: NOP, %u words", &first, &last, &words) == 3 && first == address
              && last >= first && last < SECOND_WORDS && words == last - first + 1, "%03X: %s", address, text_of(item));
    for (unsigned at = address; at <= last && at < SECOND_WORDS; at++)
        check(word_at(expected, at) == NOP_WORD, "%03X is no NOP, but is told as one", at);
    return last + 1 > address ? last + 1 : address + 1;
}

static void check_listing(struct node *root, const struct expected *expected)
{
    struct node *list = find(root, "ul", "listing");
    unsigned address = 0;
    char id[16];

    check(list != NULL, "no listing");
    for (struct node *item = list != NULL ? list->first : NULL; item != NULL; item = item->next) {
        if (item->name == NULL || address >= SECOND_WORDS)
            continue;
        snprintf(id, sizeof id, "a%03X", address);
        check(is_element(item, "li") && value_of(item, "id") != NULL && strcmp(value_of(item, "id"), id) == 0,
              "the listing's line %s is missing", id);
        if (has_class(item, "fold")) {
            address = check_fold(item, expected, address);
        } else {
            check_line(item, expected, address++);
        }
    }
    check(address == SECOND_WORDS, "the listing ends before %03X", address);
}

/* ---- Writers ---- */

static bool is_pointed(const struct expected *expected, unsigned address)
{
    struct instruction instruction;
    uint64_t value;

    return instruction_read(word_at(expected, address), &instruction, &value) == 0 && instruction.field[0] == POINTED;
}

static void check_writer(struct node *row, const struct expected *expected, int digit, unsigned address)
{
    struct node *reaches = find(row, "td", NULL);
    uint64_t times = expected->changed[digit][address];

    check_link(find(row, "a", NULL), "a writer", address, expected->line[address]);
    check_text(reaches, "how a writer reaches the cell", "%s",
               is_pointed(expected, address) ? "through $00F \u2020" : "names the cell");
    if (!expected->has_run)
        check(reaches == NULL || find_next(row, reaches, "td", NULL) == NULL, "changes without a run");
    else if (times == 0)
        check_text(find_next(row, reaches, "td", NULL), "a writer's changes", "never");
    else
        check_text(find_next(row, reaches, "td", NULL), "a writer's changes", "%" PRIu64 " time%s", times,
                   times == 1 ? "" : "s");
}

static void check_writers(struct node *root, const struct expected *expected, int digit)
{
    struct node *table = with_id(root, digit == 0 ? "writers-high" : "writers-low");
    struct node *body = table != NULL ? find(table, "tbody", NULL) : NULL;
    struct node *row = body != NULL ? find(body, "tr", NULL) : NULL;
    struct node *section = with_id(root, "writers"), *heading = section != NULL ? find(section, "h3", NULL) : NULL;
    unsigned count = 0;
    char said[64];

    for (unsigned address = 0; address < SECOND_WORDS; address++) {
        if (!expected->listed[digit][address])
            continue;
        count++;
        check(row != NULL, "%s is not among the writers", expected->line[address]);
        if (row == NULL)
            continue;
        check_writer(row, expected, digit, address);
        row = find_next(body, row, "tr", NULL);
    }
    check(row == NULL, "more writers than there are");
    if (digit == 1 && heading != NULL)
        heading = find_next(section, heading, "h3", NULL);
    snprintf(said, sizeof said, count == 0 ? "no instruction can change it" : "%u instruction%s can change it", count,
             count == 1 ? "" : "s");
    check_text(heading, "the heading of a digit's writers", "%s digit, cell $%03X: %s", digit == 0 ? "High" : "Low",
               expected->cell[digit], said);
}

/* ---- Changes ---- */

static void check_change(struct node *row, const struct expected *expected, const struct change *change)
{
    struct node *event = find(row, "th", NULL), *cell = find(row, "td", NULL);
    struct node *values = cell != NULL ? find_next(row, cell, "td", NULL) : NULL;

    check_text(event, "a change's event", "%" PRIu64, change->event);
    check_text(cell, "a change's cell", "$%03X %s digit", expected->cell[change->digit],
               change->digit == 0 ? "high" : "low");
    check_text(values, "a change", "%X \u2192 %X", change->before, change->after);
    check_link(find(row, "a", NULL), "who made a change", change->address, expected->line[change->address]);
}

static void check_changes(struct node *root, const struct expected *expected)
{
    struct node *section = with_id(root, "changes"), *table = find(root, "table", "changes");
    struct node *body = table != NULL ? find(table, "tbody", NULL) : NULL;
    struct node *row = body != NULL ? find(body, "tr", NULL) : NULL;
    struct node *left_out = section != NULL ? find(section, "p", "left-out") : NULL;

    if (expected->has_run && section != NULL)
        check((strstr(text_of(section), "No change: no event changed a level cell.") != NULL)
              == (expected->all_changes == 0), "whether there was a change");
    for (size_t at = 0; at < expected->changes; at++) {
        check(row != NULL, "the change in event %" PRIu64 " is missing", expected->change[at].event);
        if (row == NULL)
            return;
        check_change(row, expected, &expected->change[at]);
        row = find_next(body, row, "tr", NULL);
    }
    check(row == NULL, "more changes than there were");
    if (expected->all_changes > expected->changes)
        check_text(left_out, "changes that are not shown", "Not shown: %" PRIu64 " more change%s. A page has the first "
                   "%d; the tables of the section before count them all.", expected->all_changes - expected->changes,
                   expected->all_changes - expected->changes == 1 ? "" : "s", CHANGES_MOST);
    else
        check(left_out == NULL, "changes are said to be left out");
}

/* ---- The cross-reference ---- */

/* The links of an element are just those that the tables keep under a cell. */
static void check_kept(struct node *element, const struct expected *expected, unsigned cell)
{
    struct node *link = element != NULL ? find(element, "a", NULL) : NULL;
    char text[8];

    for (unsigned at = expected->tables[cell]; at < SECOND_WORDS; at = expected->tables[SECOND_CELLS + at]) {
        snprintf(text, sizeof text, "$%03X", at);
        check_link(link, "an address under a cell", at, text);
        link = link != NULL ? find_next(element, link, "a", NULL) : NULL;
    }
    check(link == NULL, "more addresses under $%03X than there are", cell);
}

/* Every cell that has writers of its own has its row, the level's digits always. */
static void check_kind(struct node *root, const struct expected *expected, const char *id, unsigned first,
                       unsigned last)
{
    struct node *table = with_id(root, id), *body = table != NULL ? find(table, "tbody", NULL) : NULL;
    struct node *row = body != NULL ? find(body, "tr", NULL) : NULL;

    for (unsigned cell = first; cell <= last; cell++) {
        const char *digit = cell == expected->cell[0] ? " high digit" : cell == expected->cell[1] ? " low digit" : "";

        if (expected->tables[cell] >= SECOND_WORDS && digit[0] == '\0')
            continue;
        check(row != NULL, "$%03X has no row in the cross-reference", cell);
        if (row == NULL)
            return;
        check_text(find(row, "th", NULL), "a cell of the cross-reference", "$%03X%s", cell, digit);
        check_kept(row, expected, cell);
        row = find_next(body, row, "tr", NULL);
    }
    check(row == NULL, "more cells in %s than have writers", id);
}

void check_program(struct node *root, const struct asked *asked, const struct expected *expected)
{
    check_listing(root, expected);
    for (int digit = 0; digit < DIGITS; digit++)
        check_writers(root, expected, digit);
    if (asked->has_script)
        check_changes(root, expected);
    check_kept(with_id(root, "xref-pointed"), expected, POINTED);
    check_kind(root, expected, "xref-data", 0x020, 0x16F);
    check_kind(root, expected, "xref-display", 0x300, 0x348);
    check_kind(root, expected, "xref-scan", 0x358, 0x36D);
}
