/* What a report says in words: its title, the glance at its head, the book, how the run ended, refusals. */
#include "page_check.h"

#include <inttypes.h>
#include <stdio.h>
#include <stdlib.h>
#include <string.h>

enum { WORD_ROOM = 512 };

/* ---- Head and book ---- */

static void check_title(struct node *root, const struct asked *asked)
{
    struct node *head = find(root, "head", NULL);
    char wanted[WORD_ROOM];

    if (asked->shown_title != NULL)
        snprintf(wanted, sizeof wanted, "%s", asked->shown_title);
    else
        snprintf(wanted, sizeof wanted, "Lift report on %s",
                 strrchr(asked->shown_book, '/') ? strrchr(asked->shown_book, '/') + 1 : asked->shown_book);
    check_text(head != NULL ? find(head, "title", NULL) : NULL, "the title", "%s", wanted);
    check_text(find(root, "h1", NULL), "the heading", "%s", wanted);
}

/* The page's glance, place by place: what it is of, and what it says. */
static void check_glance(struct node *root, const struct asked *asked, const struct expected *expected)
{
    const struct stand *last = expected->stands > 0 ? &expected->stand[expected->stands - 1] : NULL;
    char wanted[4 * WORD_ROOM], level[64] = "none";
    int at = snprintf(wanted, sizeof wanted, "\nBook%s %zu bytes\n", asked->shown_book, asked->book_len);

    if (asked->has_script)
        at += snprintf(wanted + at, sizeof wanted - (size_t)at, "Script%s %" PRIu64 " of %zu event%s done\n",
                       asked->shown_script, expected->done, asked->script_len, asked->script_len == 1 ? "" : "s");
    if (last != NULL && last->level_told.number == 0) {
        int begun = snprintf(level, sizeof level, "%s read as decimal ", shown_level(last->level));

        snprintf(level + begun, sizeof level - (size_t)begun, "%s", shown_level(last->level + 2l * last->digit[0]));
    }
    if (last != NULL)
        at += snprintf(wanted + at, sizeof wanted - (size_t)at,
                       "Level at the %s%s\nReadings differ%" PRIu64 " of %" PRIu64 " looks at it",
                       expected->has_run ? "end" : "start", level, expected->differing, expected->looks);
    if (last != NULL && expected->unread > 0)
        at += snprintf(wanted + at, sizeof wanted - (size_t)at, "; no level at %" PRIu64, expected->unread);
    if (last != NULL)
        at += snprintf(wanted + at, sizeof wanted - (size_t)at, "\n");
    if (expected->refusals == 0)
        snprintf(wanted + at, sizeof wanted - (size_t)at, "Refusalsnone\n");
    else
        snprintf(wanted + at, sizeof wanted - (size_t)at, "Refusals%zu\n", expected->refusals);
    check_text(find(root, "dl", "glance"), "the glance", "%s", wanted);
}

static void check_book(struct node *root, const struct asked *asked, const struct expected *expected)
{
    struct node *table = find(root, "table", "bodies"), *body = table != NULL ? find(table, "tbody", NULL) : NULL;
    struct node *wiring = find(root, "ul", "wiring"), *item = wiring != NULL ? find(wiring, "li", NULL) : NULL;
    const uint8_t *element = asked->book + asked->wiring;
    const unsigned elements = (unsigned)asked->wiring_len / 3;
    unsigned blank = 0, unlisted = 0;

    for (unsigned address = 0; address < SECOND_WORDS; address++) {
        blank += memcmp(expected->program + 2 * address, "\xFF\xFF", 2) == 0;
        unlisted += strcmp(expected->line[address] + 9, "DATA") == 0;
    }
    check_text(body, "the bodies",
               "\nProgram8192%u words, of these %u NOP and %u that %s no instruction\n"
               "Wiring%u%u element%s of the panel\n"
               "Level5high digit in cell $%03X, low digit in cell $%03X, ground code %u\n", SECOND_WORDS, blank,
               unlisted, unlisted == 1 ? "is" : "are", 3 * elements, elements, elements == 1 ? "" : "s",
               expected->cell[0], expected->cell[1], expected->ground);
    for (unsigned at = 0; at < elements; at++, element += 3) {
        check_text(item, "an element's wiring", "%u $%03X.%u", at, element[0] * 256u + element[1], element[2]);
        item = item != NULL ? find_next(wiring, item, "li", NULL) : NULL;
    }
    check(item == NULL, "more wired elements than there are");
}

/* ---- The run ---- */

static bool says(struct node *section, const char *text)
{
    return section != NULL && strstr(text_of(section), text) != NULL;
}

static void check_start(struct node *section, const struct asked *asked)
{
    char wanted[WORD_ROOM];

    if (asked->has_state)
        snprintf(wanted, sizeof wanted, "The script %s, on the book\u2019s chip in the state of %s.\n",
                 asked->shown_script, asked->state);
    else
        snprintf(wanted, sizeof wanted, "The script %s, on the book\u2019s chip as it is when just switched on, with "
                 "options %u: watchdog %s, bonding bits BD0 %u and BD1 %u.\n", asked->shown_script, asked->options,
                 asked->options % 2 ? "on" : "off", asked->options / 2 % 2, asked->options / 4 % 2);
    check(says(section, wanted), "where the run begins: %s", wanted);
}

static void check_end(struct node *root, const struct asked *asked, const struct expected *expected)
{
    struct node *section = with_id(root, "run");
    char wanted[WORD_ROOM];
    int begun;

    if (!expected->has_run) {
        snprintf(wanted, sizeof wanted, "None of %zu event%s was done.", asked->script_len,
                 asked->script_len == 1 ? "" : "s");
        check(says(section, wanted), "that no event was done");
        return;
    }
    snprintf(wanted, sizeof wanted, "%" PRIu64 " of %zu event%s done; the run ended %s", expected->done,
             asked->script_len,
             asked->script_len == 1 ? "" : "s",
             expected->reason == SECOND_AT_END ? "at the script\u2019s end." : "before a word that is no instruction, "
                                                                               "at $");
    check(says(section, wanted), "how the run ended: %s", wanted);
    snprintf(wanted, sizeof wanted, "with PC at $%03X.", expected->end_pc);
    check(says(section, wanted), "where the run ended: %s", wanted);
    if (asked->stop < SECOND_WORDS)
        check(says(section, ", of which there was none, and at the end: ") == (expected->looks == 2),
              "whether a cycle came to the stop");
    begun = snprintf(wanted, sizeof wanted, ": %" PRIu64 " times in all. At %" PRIu64 " of these the decimal reading is "
                                            "a wrong stop", expected->looks, expected->differing);
    if (expected->unread > 0)
        begun += snprintf(wanted + begun, sizeof wanted - (size_t)begun, ", and at %" PRIu64 " there is no level",
                          expected->unread);
    snprintf(wanted + begun, sizeof wanted - (size_t)begun, ".");
    check(says(section, wanted), "how often the readings differ: %s", wanted);
}

/* ---- Refusals ---- */

static void check_refused(struct node *item, const struct refused *refused)
{
    char wanted[WORD_ROOM];

    snprintf(wanted, sizeof wanted, "%s: refused by %u, value %" PRIu64 ": ", refused->what, refused->told.number,
             refused->told.value);
    check(item != NULL && strncmp(text_of(item), wanted, strlen(wanted)) == 0, "the refusal: %s", wanted);
    if (refused->times == 0)
        return;
    snprintf(wanted, sizeof wanted, ". Met %" PRIu64 " time%s, first after %" PRIu64 " event%s.", refused->times,
             refused->times == 1 ? "" : "s", refused->first, refused->first == 1 ? "" : "s");
    check(says(item, wanted), "how often it was met: %s", wanted);
}

static void check_refusals(struct node *root, const struct expected *expected)
{
    struct node *section = with_id(root, "refusals"), *item = section != NULL ? find(section, "li", NULL) : NULL;

    if (expected->refusals == 0)
        check(says(section, "None: the library refused nothing"), "that nothing was refused");
    for (size_t at = 0; at < expected->refusals; at++) {
        check_refused(item, &expected->refused[at]);
        item = item != NULL ? find_next(section, item, "li", NULL) : NULL;
    }
    check(item == NULL, "more refusals than there were");
}

void check_words(struct node *root, const struct asked *asked, const struct expected *expected)
{
    struct node *book = with_id(root, "book"), *run = with_id(root, "run");

    check_title(root, asked);
    check_glance(root, asked, expected);
    check_book(root, asked, expected);
    check_text(book != NULL ? find(book, "code", NULL) : NULL, "the book's path", "%s", asked->shown_book);
    if (asked->has_script) {
        check_start(run, asked);
        check_text(run != NULL ? find(run, "code", NULL) : NULL, "the script's path", "%s", asked->shown_script);
        check_end(root, asked, expected);
    } else {
        check(says(run, "No script was given, so nothing was run"), "that nothing was run");
    }
    check_refusals(root, expected);
}
