/* The report's listing: every word of the program, runs of NOP in one line, so that whatever the page links to has its
   line. */
#include "report_parts.h"

#include <stdlib.h>
#include <string.h>

enum { HALF = 0x800, FOLD_LEAST = 2 };

/* Where a line's word can lead besides the next one, as its operand tells: a jump's is an address, that of a branch or
   a call lies in the half of the program in which the word stands. Answers false for any other word. */
static bool leads_to(const char *line, unsigned address, unsigned *target)
{
    const char *name = line + LINE_MNEMONIC;
    const bool jump = strncmp(name, "JMP ", 4) == 0;

    if (!jump && name[0] != 'B' && strncmp(name, "CALL ", 5) != 0)
        return false;
    *target = (unsigned)strtoul(first_operand(line), NULL, 16);
    if (!jump)
        *target |= address & HALF;
    return *target < GALHOVEIA_WORDS;
}

/* The line, with a link where its operand is a target. */
static void put_code(struct report *report, unsigned address)
{
    struct page *page = &report->page;
    const char *line = report->book.lines.at[address], *operand = first_operand(line);
    char before[GALHOVEIA_LINE_BYTES_MOST];
    unsigned target;

    put(page, "<code>");
    if (!leads_to(line, address, &target)) {
        put_text(page, line);
    } else {
        snprintf(before, sizeof before, "%.*s", (int)(operand - line), line);
        put_text(page, before);
        put_form(page, "<a href=\"#a%03X\">", target);
        put_text(page, operand);
        put(page, "</a>");
    }
    put(page, "</code>");
}

static bool is_writer(const struct report *report, enum digit digit, unsigned address)
{
    return report->watch.cells[digit].listed[address];
}

static void put_one(struct report *report, unsigned address)
{
    struct page *page = &report->page;
    const bool high = is_writer(report, HIGH, address), low = is_writer(report, LOW, address);

    put_form(page, "<li id=\"a%03X\">", address);
    put_code(report, address);
    if (high || low)
        put_form(page, " <span class=\"mark\">%s</span>", high && low ? "high, low" : high ? "high" : "low");
    put(page, "</li>\n");
}

/* How many NOPs stand here that the page does not link to, so that one line can tell of them. */
static unsigned foldable(const struct report *report, unsigned address)
{
    unsigned end = address;

    while (end < GALHOVEIA_WORDS && is_nop(&report->book, end) && !report->linked[end])
        end++;
    return end - address;
}

void put_listing(struct report *report)
{
    struct page *page = &report->page;
    unsigned target;

    for (unsigned address = 0; address < GALHOVEIA_WORDS; address++)
        if (leads_to(report->book.lines.at[address], address, &target))
            report->linked[target] = true;
    put(page, "<p>Each line is the address, the word, the data sheet\u2019s mnemonic and its operands, in hex; a word "
              "that is no instruction has the mark DATA. Lines that can write a digit of the level are marked <span "
              "class=\"mark\">high</span> or <span class=\"mark\">low</span>. Where NOPs follow each other, one line "
              "tells of them.</p>\n<ul class=\"listing\">\n");
    for (unsigned address = 0; address < GALHOVEIA_WORDS;) {
        unsigned fold = foldable(report, address);

        if (fold < FOLD_LEAST) {
            put_one(report, address++);
            continue;
        }
        put_form(page, "<li class=\"fold\" id=\"a%03X\"><code>%03X\u2013%03X: NOP, %u words</code></li>\n", address,
                 address, address + fold - 1, fold);
        address += fold;
    }
    put(page, "</ul>\n");
}
