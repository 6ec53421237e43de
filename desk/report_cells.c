/* The report's sections on cells: who can write the level's, who did, and the cross-reference. */
#include "report_parts.h"

static const char *const digit_names[DIGITS] = {"High digit", "Low digit"};
static const char *const digit_ids[DIGITS] = {"writers-high", "writers-low"};

static const struct watched *watched_digit(const struct report *report, enum digit digit)
{
    return &report->watch.cells[digit];
}

/* ---- Who can ---- */

static void put_times(struct page *page, uint64_t times)
{
    if (times == 0)
        put(page, "<td>never</td>");
    else
        put_form(page, "<td><b>%llu time%s</b></td>", (unsigned long long)times, plural(times));
}

static void put_writer(struct report *report, enum digit digit, unsigned address)
{
    struct page *page = &report->page;

    put(page, "<tr><th scope=\"row\">");
    put_line(report, address);
    put_form(page, "</th><td>%s</td>", is_through_pointer(&report->book, address) ? "through <code>$00F</code> \u2020"
                                                                                   : "names the cell");
    if (has_run(report))
        put_times(page, watched_digit(report, digit)->changed[address]);
    put(page, "</tr>\n");
}

static void put_digit_writers(struct report *report, enum digit digit)
{
    struct page *page = &report->page;
    const struct writers *writers = &report->writers[digit];

    put_form(page, "<h3>%s, cell $%03X: ", digit_names[digit], level_cell(&report->book, digit));
    if (writers->count == 0) {
        put(page, "no instruction can change it</h3>\n");
        return;
    }
    put_form(page, "%zu instruction%s can change it</h3>\n<div class=\"wide\">\n<table class=\"writers\" "
                   "id=\"%s\">\n<thead><tr><th scope=\"col\">Instruction</th><th scope=\"col\">Reaches the "
                   "cell</th>%s</tr></thead>\n<tbody>\n",
             writers->count, plural(writers->count), digit_ids[digit],
             has_run(report) ? "<th scope=\"col\">Changed it in this run</th>" : "");
    for (size_t at = 0; at < writers->count; at++)
        put_writer(report, digit, writers->address[at]);
    put(page, "</tbody>\n</table>\n</div>\n");
}

static bool any_through_pointer(const struct report *report)
{
    struct writers pointed;

    take_kept(&report->xref, GALHOVEIA_XREF_POINTED, &pointed);
    return pointed.count > 0;
}

void put_writers(struct report *report)
{
    struct page *page = &report->page;

    put(page, "<p>These instructions and no others can leave a level cell with another value. The list is proved "
              "exact: an address that is not in it cannot have written the digit, and for each that is there is some "
              "state of the chip in which it does. Each line is that of the <a href=\"#listing\">listing</a>: address, "
              "word, mnemonic, operands.</p>\n");
    for (enum digit digit = HIGH; digit < DIGITS; digit++)
        put_digit_writers(report, digit);
    if (any_through_pointer(report))
        put(page, "<p class=\"note\">\u2020 Such an instruction names <code>$00F</code> and writes wherever the "
                  "pointer <code>$012</code>, <code>$011</code>, <code>$010</code> stands. It stands in the list of "
                  "every cell, since some state of the chip has the pointer there, whether or not this program ever "
                  "comes to it.</p>\n");
}

/* ---- Who did ---- */

static void put_change(struct report *report, const struct cell_change *change)
{
    struct page *page = &report->page;

    put_form(page, "<tr><th scope=\"row\" class=\"number\">%llu</th><td><code>$%03lX</code> %s</td><td>%X \u2192 "
                   "%X</td><td>",
             (unsigned long long)change->place, (unsigned long)change->watched->cell,
             change->watched == watched_digit(report, HIGH) ? "high digit" : "low digit", change->before,
             change->after);
    put_line(report, change->address);
    put(page, "</td></tr>\n");
}

static void put_change_table(struct report *report, uint64_t changes)
{
    struct page *page = &report->page;

    put(page, "<div class=\"wide\">\n<table class=\"changes\">\n<thead><tr><th scope=\"col\" "
              "class=\"number\">Event</th><th scope=\"col\">Cell</th><th scope=\"col\">Before \u2192 after</th><th "
              "scope=\"col\">By</th></tr></thead>\n<tbody>\n");
    for (size_t at = 0; at < report->changes_kept; at++)
        put_change(report, &report->changes[at]);
    put(page, "</tbody>\n</table>\n</div>\n");
    if (changes > report->changes_kept)
        put_form(page, "<p class=\"left-out\">Not shown: %llu more change%s. A page has the first %d; the tables of "
                       "the section before count them all.</p>\n", (unsigned long long)(changes - report->changes_kept),
                 plural(changes - report->changes_kept), CHANGES_MOST);
}

void put_changes(struct report *report)
{
    struct page *page = &report->page;
    uint64_t changes = 0;

    if (!has_run(report)) {
        put(page, "<p>Nothing was run, so nothing was written.</p>\n");
        return;
    }
    for (enum digit digit = HIGH; digit < DIGITS; digit++)
        changes += watched_digit(report, digit)->changes;
    put(page, "<p>The run was gone through once more, event by event, and the level cells were looked at after each. "
              "Every change was made by an instruction of the lists above; any other would have been told as a fault, "
              "and this page would not have been written.</p>\n");
    if (changes == 0) {
        put(page, "<p><b>No change</b>: no event changed a level cell.</p>\n");
        return;
    }
    put_form(page, "<p><b>%llu change%s</b>, with events counted from 0:</p>\n", (unsigned long long)changes,
             plural(changes));
    put_change_table(report, changes);
}

/* ---- The cross-reference ---- */

static void put_addresses(struct report *report, const struct writers *kept)
{
    for (size_t at = 0; at < kept->count; at++) {
        put(&report->page, at > 0 ? " " : "");
        put_address(report, kept->address[at]);
    }
    if (kept->count == 0)
        put(&report->page, "none");
}

static const char *digit_of(const struct report *report, unsigned cell)
{
    return cell == level_cell(&report->book, HIGH)  ? " high digit"
           : cell == level_cell(&report->book, LOW) ? " low digit"
                                                    : "";
}

/* A cell's row: its own writers. One without any has none, but for the level's digits. */
static void put_own(struct report *report, unsigned cell)
{
    struct page *page = &report->page;
    const char *digit = digit_of(report, cell);
    struct writers own;

    take_kept(&report->xref, cell, &own);
    if (own.count == 0 && digit[0] == '\0')
        return;
    put_form(page, "<tr data-cell=\"%03X\"><th scope=\"row\"><code>$%03X</code>%s</th><td>", cell, cell, digit);
    put_addresses(report, &own);
    put(page, "</td></tr>\n");
}

static void put_kind(struct report *report, const struct kind *kind)
{
    struct page *page = &report->page;
    struct writers own;
    unsigned cells = 0, shown = 0;

    for (unsigned cell = kind->first; cell <= kind->last; cell++) {
        take_kept(&report->xref, cell, &own);
        cells += own.count > 0;
        shown += own.count > 0 || digit_of(report, cell)[0] != '\0';
    }
    put_form(page, "<h3>%c%s cells $%03X\u2013$%03X: %u of %u with writers of their own</h3>\n",
             kind->name[0] - 'a' + 'A', kind->name + 1, kind->first, kind->last, cells,
             kind->last - kind->first + 1);
    if (shown == 0)
        return;
    put_form(page, "<div class=\"wide\">\n<table class=\"xref\" id=\"xref-%s\">\n<thead><tr><th scope=\"col\">Cell</th>"
                   "<th scope=\"col\">Its own writers</th></tr></thead>\n<tbody>\n", kind->name);
    for (unsigned cell = kind->first; cell <= kind->last; cell++)
        put_own(report, cell);
    put(page, "</tbody>\n</table>\n</div>\n");
}

void put_xref(struct report *report)
{
    struct page *page = &report->page;
    struct writers pointed;

    put(page, "<p>The writers of a cell are its own, which name it, joined with those through <code>$00F</code>, which "
              "can write every data, display and scan cell and stand here once.</p>\n<p id=\"xref-pointed\">Through "
              "<code>$00F</code>: ");
    take_kept(&report->xref, GALHOVEIA_XREF_POINTED, &pointed);
    put_addresses(report, &pointed);
    put(page, "</p>\n");
    for (int at = 0; at < KINDS; at++)
        put_kind(report, &kinds[at]);
}
