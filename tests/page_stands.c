/* A report's panels and levels, held against the second emulator's pictures and levels of the same stops. */
#include "page_check.h"

#include <inttypes.h>
#include <stdio.h>
#include <stdlib.h>
#include <string.h>

enum { SEGMENTS = 7, DIGIT_WIDE = 60, DIGIT_HIGH = 104, DIGITS_IN_ROW = 8 };

static const char *ending(uint64_t count)
{
    return count == 1 ? "" : "s";
}

/* ---- The picture ---- */

/* Where in a digit's field the middle of each segment a to g lies: left, middle or right; and how far down, in
   quarters. */
static const struct {
    int across, down;
} middle[SEGMENTS] = {{1, 0}, {2, 1}, {2, 3}, {1, 4}, {0, 3}, {0, 1}, {1, 2}};

static void check_segment(struct node *element, unsigned number)
{
    struct node *polygon = find(element, "polygon", NULL);
    const char *at = polygon != NULL ? value_of(polygon, "points") : NULL;
    long x = 0, y = 0, corners = 0;

    while (at != NULL && *at != '\0') {
        char *end;

        x += strtol(at, &end, 10);
        y += strtol(end + 1, &end, 10);
        corners++;
        at = end + (*end == ' ');
    }
    check(corners > 2 && 3 * x / corners / DIGIT_WIDE == middle[number % SEGMENTS].across
              && (4 * y / corners + DIGIT_HIGH / 2) / DIGIT_HIGH == middle[number % SEGMENTS].down,
          "element %u is drawn at another place of its digit", number);
}

/* A lamp that is lit has rays, one that is dark has none. */
static void check_lamp(struct node *element, unsigned number, bool lit)
{
    check(find(element, "circle", NULL) != NULL && (find(element, "path", "rays") != NULL) == lit,
          "element %u is no lamp that is %s", number, lit ? "lit" : "dark");
    check_text(find(element->parent, "text", NULL), "a lamp's number", "%u", number);
}

/* A digit or lamp stands right of the one before it, or begins a row below. */
static void check_place(struct node *element, const struct asked *asked, unsigned number)
{
    static int last_x, last_y;
    const unsigned lamps_from = SEGMENTS * asked->digits;
    const char *transform = value_of(element->parent, "transform");
    const unsigned in_row = number < lamps_from ? number / SEGMENTS % DIGITS_IN_ROW
                                                : (number - lamps_from) % asked->columns;
    int x = 0, y = 0;

    if (number < lamps_from && number % SEGMENTS > 0)
        return;
    check(transform != NULL && sscanf(transform, "translate(%d %d)", &x, &y) == 2, "element %u has no place", number);
    if (number > 0)
        check(in_row > 0 ? y == last_y && x > last_x : y > last_y, "element %u is not in its place", number);
    last_x = x;
    last_y = y;
}

static void check_element(struct node *element, const struct asked *asked, const struct stand *stand, unsigned number)
{
    const uint8_t *wired = asked->book + asked->wiring + 3 * number;
    const bool lit = stand->picture[number] != 0;
    const char *said_lit = value_of(element, "data-lit"), *cell = value_of(element, "data-cell"),
               *bit = value_of(element, "data-bit"), *said_number = value_of(element, "data-element");

    check(said_number != NULL && strtoul(said_number, NULL, 10) == number, "element %u is not where it is due", number);
    check(said_lit != NULL && strcmp(said_lit, lit ? "1" : "0") == 0, "after %" PRIu64 " events element %u must be %s",
          stand->events, number, lit ? "lit" : "dark");
    check(has_class(element, lit ? "lit" : "dark") && !has_class(element, lit ? "dark" : "lit"),
          "after %" PRIu64 " events element %u must look %s", stand->events, number, lit ? "lit" : "dark");
    check(cell != NULL && strtoul(cell, NULL, 16) == wired[0] * 256u + wired[1],
          "element %u is wired to another cell", number);
    check(bit != NULL && strtoul(bit, NULL, 10) == wired[2], "element %u is wired to another bit", number);
    check_text(find(element, "title", NULL), "an element's title", "element %u, cell $%03X bit %u: %s", number,
               wired[0] * 256u + wired[1], wired[2], lit ? "lit" : "dark");
    check_place(element, asked, number);
    if (number < SEGMENTS * asked->digits)
        check_segment(element, number);
    else
        check_lamp(element, number, lit);
}

static void check_described(struct node *svg, const struct stand *stand)
{
    char wanted[8 * ELEMENTS_MOST], *at = wanted;
    unsigned lit = 0;

    for (unsigned number = 0; number < stand->elements; number++)
        lit += stand->picture[number];
    if (lit == 0) {
        check_text(find(svg, "desc", NULL), "a picture's description", "All %u elements are dark.",
                   (unsigned)stand->elements);
        return;
    }
    at += sprintf(at, "%u of %u elements lit:", lit, (unsigned)stand->elements);
    for (unsigned number = 0; number < stand->elements; number++)
        if (stand->picture[number])
            at += sprintf(at, " %u,", number);
    at[-1] = '.';
    check_text(find(svg, "desc", NULL), "a picture's description", "%s", wanted);
}

static void check_panel(struct node *section, const struct asked *asked, const struct stand *stand)
{
    struct node *svg = find(section, "svg", NULL), *element;
    unsigned number = 0;

    if (stand->picture_told.number != 0) {
        char wanted[64];
        struct node *words = find(section, "p", "refused");

        snprintf(wanted, sizeof wanted, "The picture: refused by %u, value %" PRIu64 ": ", stand->picture_told.number,
                 stand->picture_told.value);
        check(svg == NULL && words != NULL && strncmp(text_of(words), wanted, strlen(wanted)) == 0,
              "a picture that is refused by %u", stand->picture_told.number);
        return;
    }
    check(svg != NULL && find_next(section, svg, "svg", NULL) == NULL, "not one picture at a stop");
    if (svg == NULL)
        return;
    for (element = find(svg, "g", NULL); element != NULL; element = find_next(svg, element, "g", NULL))
        if (value_of(element, "data-element") != NULL && number < stand->elements)
            check_element(element, asked, stand, number++);
        else
            check(value_of(element, "data-element") == NULL, "more elements than the wiring has");
    check(number == stand->elements, "%u of %u elements are drawn", number, (unsigned)stand->elements);
    check_described(svg, stand);
}

/* ---- The level ---- */

static void check_reading(struct node *section, const char *row_class, unsigned base, const struct stand *stand,
                          unsigned ground)
{
    struct node *row = find(section, "tr", row_class), *code = row != NULL ? find(row, "td", NULL) : NULL;
    unsigned sum = base * stand->digit[0] + stand->digit[1];

    check_text(code, "a reading's code", "%u \u00D7 %u + %u = %u", base, stand->digit[0], stand->digit[1], sum);
    check_text(code != NULL ? find_next(row, code, "td", NULL) : NULL, "a reading's level", "%u \u2212 %u = %s", sum,
               ground, shown_level((long)sum - (long)ground));
}

static void check_level(struct node *section, const struct expected *expected, const struct stand *stand)
{
    const long octal = stand->level, decimal = octal + 2l * stand->digit[0];
    const unsigned long far = (unsigned long)labs(octal);
    struct node *verdict = find(section, "p", "verdict"), *level = find(section, "p", "level");

    check_text(find(section, "p", "digits"), "the digits", "High digit %X in cell $%03X, low digit %X in cell $%03X, "
               "ground code %u", stand->digit[0], expected->cell[0], stand->digit[1], expected->cell[1],
               expected->ground);
    if (stand->level_told.number != 0) {
        struct node *words = level != NULL ? find_next(section, level, "p", "refused") : NULL;
        char wanted[64];

        snprintf(wanted, sizeof wanted, "The level: refused by %u, value %" PRIu64 ": ", stand->level_told.number,
                 stand->level_told.value);
        check_text(level, "a refused level", "No level");
        check(words != NULL && strncmp(text_of(words), wanted, strlen(wanted)) == 0, "no words for a refused level");
        check(find(section, "table", "readings") == NULL, "readings of a refused level");
        if (stand->digit[0] > 9 || stand->digit[1] > 9)
            check_text(verdict, "no decimal digits", "As decimal digits they are none either.");
        else
            check_text(verdict, "the decimal reading alone", "Read as decimal, they would be filed under level %s, where "
                       "there is no level.",
                       shown_level(10l * stand->digit[0] + stand->digit[1] - (long)expected->ground));
        return;
    }
    if (octal == 0)
        check_text(level, "the level", "Level 0, the ground stop");
    else
        check_text(level, "the level", "Level %s, %lu stop%s %s the ground stop", shown_level(octal), far, ending(far),
                   octal < 0 ? "below" : "above");
    check_reading(section, "by-8", 8, stand, expected->ground);
    check_reading(section, "by-10", 10, stand, expected->ground);
    check(verdict != NULL && has_class(verdict, "differs") == (octal != decimal), "whether the readings differ");
    if (octal == decimal)
        check_text(verdict, "the verdict", "Both readings agree: with a high digit of 0 they cannot differ.");
    else
        check_text(verdict, "the verdict", "The readings differ. The decimal one is the wrong stop: work at level %s "
                   "would be filed under level %s.", shown_level(octal), shown_level(decimal));
}

/* ---- One stop, and all ---- */

static const char *where(const struct expected *expected, const struct asked *asked, const struct stand *stand)
{
    static char words[32];

    snprintf(words, sizeof words, "At $%03X", asked->stop);
    return strcmp(stand->place, "start") == 0    ? "At the start"
           : strcmp(stand->place, "stop") == 0   ? words
           : expected->reason == SECOND_AT_END ? "At the script\u2019s end"
                                                 : "Before a word that is no instruction";
}

static void check_stand(struct node *section, const struct asked *asked, const struct expected *expected, size_t at)
{
    const struct stand *stand = &expected->stand[at];
    const char *place = value_of(section, "data-place"), *events = value_of(section, "data-events"),
               *more = value_of(section, "data-more"), *id = value_of(section, "id");
    struct node *folded = find(section, "p", "more");
    char wanted[32];

    snprintf(wanted, sizeof wanted, "panel-%zu", at);
    check(id != NULL && strcmp(id, wanted) == 0, "%s has another id", wanted);
    check(place != NULL && strcmp(place, stand->place) == 0, "%s must be at the %s", wanted, stand->place);
    check(events != NULL && strtoull(events, NULL, 10) == stand->events, "%s is after %" PRIu64 " events", wanted,
          stand->events);
    check(more != NULL && strtoull(more, NULL, 10) == stand->more, "%s has %" PRIu64 " more alike", wanted,
          stand->more);
    check_text(find(section, "h3", NULL), "a stop's heading", "%s, after %" PRIu64 " event%s",
               where(expected, asked, stand), stand->events, ending(stand->events));
    if (stand->more == 0)
        check(folded == NULL, "more stops than there are");
    else
        check_text(folded, "folded stops",
                   "The same at %" PRIu64 " more stop%s, up to the one after %" PRIu64 " events.", stand->more,
                   ending(stand->more), stand->until);
    check_panel(section, asked, stand);
    check_level(section, expected, stand);
}

static void check_row(struct node *row, const struct asked *asked, const struct expected *expected, size_t at)
{
    const struct stand *stand = &expected->stand[at];
    const long decimal = stand->level + 2l * stand->digit[0];
    char wanted[160];
    int begun = snprintf(wanted, sizeof wanted, "%s%" PRIu64 "%" PRIu64 "%X, %X", where(expected, asked, stand),
                         stand->events, stand->more + 1, stand->digit[0], stand->digit[1]);

    if (stand->level_told.number == 0) {
        snprintf(wanted + begun, sizeof wanted - (size_t)begun, "%s", shown_level(stand->level));
        begun = (int)strlen(wanted);
        snprintf(wanted + begun, sizeof wanted - (size_t)begun, "%s%s", shown_level(decimal),
                 decimal == stand->level ? "agree" : "differ");
        check_text(row, "a stop's row", "%s", wanted);
        return;
    }
    snprintf(wanted + begun, sizeof wanted - (size_t)begun, "no level: refused by %u, value %" PRIu64 ": ",
             stand->level_told.number, stand->level_told.value);
    check(strncmp(text_of(row), wanted, strlen(wanted)) == 0, "the row of a refused level");
}

void check_stands(struct node *root, const struct asked *asked, const struct expected *expected)
{
    struct node *table = find(root, "table", "stops"), *body = table != NULL ? find(table, "tbody", NULL) : NULL;
    struct node *left_out = find(root, "p", "left-out");
    size_t stands = 0, rows = 0;

    for (struct node *at = find(root, "section", "stand"); at != NULL; at = find_next(root, at, "section", "stand")) {
        if (stands < expected->stands)
            check_stand(at, asked, expected, stands);
        stands++;
    }
    for (struct node *row = body != NULL ? find(body, "tr", NULL) : NULL; row != NULL;
         row = find_next(body, row, "tr", NULL)) {
        if (rows < expected->stands)
            check_row(row, asked, expected, rows);
        rows++;
    }
    check(stands == expected->stands && rows == stands, "%zu panels and %zu rows for %zu stops", stands, rows,
          expected->stands);
    if (expected->left_out > 0)
        check_text(left_out, "stops that are not drawn", "Not drawn: %" PRIu64 " more stop%s before "
                   "the end. A page has %d panels at most.", expected->left_out, ending(expected->left_out),
                   STANDS_MOST);
    else
        check(left_out == NULL || value_of(left_out, "data-left-out") == NULL, "stops are said to be left out");
}
