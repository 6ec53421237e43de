/* Judges a page that desk report has written, with the second emulator and a reading of its own:
     page_checker PAGE BOOK [--script FILE] [--raw-script] [--stop HEX] [--state FILE] [--options N] [--digits N]
                  [--columns N] [--shown-title TEXT] [--shown-book TEXT] [--shown-script TEXT]
   The words are those of the report; what the page must show of names that it cannot show as they are is told by the
   last three. Each thing that is wrong has a line, and the last line tells how many checks passed and failed.
     page_checker --command PAGE
   tells the command line that the page says it was made by. */
#include "page_check.h"

#include "../desk/texts.h"

#include <stdarg.h>
#include <stdio.h>
#include <stdlib.h>
#include <string.h>

enum { WRONG_MOST = 20, TEXT_ROOM = 4096 };

static unsigned long passed, failed;

static void count(bool holds, const char *what, const char *text)
{
    if (holds) {
        passed++;
        return;
    }
    failed++;
    if (failed <= WRONG_MOST)
        printf("WRONG %s%s\n", what, text);
}

void check(bool holds, const char *format, ...)
{
    char text[TEXT_ROOM];
    va_list arguments;

    va_start(arguments, format);
    vsnprintf(text, sizeof text, format, arguments);
    va_end(arguments);
    count(holds, "", text);
}

void check_text(const struct node *node, const char *what, const char *format, ...)
{
    char wanted[TEXT_ROOM], told[2 * TEXT_ROOM + 64];
    const char *text = node != NULL ? text_of(node) : "nothing";
    va_list arguments;

    va_start(arguments, format);
    vsnprintf(wanted, sizeof wanted, format, arguments);
    va_end(arguments);
    snprintf(told, sizeof told, ": '%s', not '%s'", text, wanted);
    count(node != NULL && strcmp(text, wanted) == 0, what, told);
}

const char *shown_level(long level)
{
    static char shown[2][32]; /* two, for two levels in one line */
    static int turn;

    turn = 1 - turn;
    snprintf(shown[turn], sizeof shown[turn], level < 0 ? "\u2212%ld" : "%ld", labs(level));
    return shown[turn];
}

static struct node *page_of(const char *path)
{
    struct bytes page = read_file(path, SCRIPT_FILE_MOST);
    const char *why = "";
    unsigned long line = 0;
    struct node *root = read_page((const char *)page.at, page.length, &why, &line);

    check(root != NULL, "%s:%lu: not well formed: %s", path, line, why);
    return root;
}

static void take_book(struct asked *asked, const char *path)
{
    struct bytes book = read_file(path, FILE_MOST);
    uint64_t value;

    asked->book = book.at;
    asked->book_len = book.length;
    if (second_book_read(book.at, book.length, &asked->program, &asked->program_len, &asked->wiring, &asked->wiring_len,
                         &asked->level, &asked->level_len, &value) != 0)
        fail("%s is no book", path);
    if (asked->shown_book == NULL)
        asked->shown_book = path;
}

static void take_script(struct asked *asked, const char *path, bool raw)
{
    struct bytes script = read_script(path, raw, script_from_text);

    asked->script = script.at;
    asked->script_len = script.length;
    asked->has_script = true;
    if (asked->shown_script == NULL)
        asked->shown_script = path;
}

static void take_state(struct asked *asked, const char *path)
{
    struct bytes state = read_file(path, FILE_MOST);

    if (state.length != SECOND_CELLS + SECOND_RECORD_BYTES)
        fail("%s is no state", path);
    memcpy(asked->memory, state.at, SECOND_CELLS);
    memcpy(asked->record, state.at + SECOND_CELLS, SECOND_RECORD_BYTES);
    asked->has_state = true;
    asked->state = path;
}

/* The words behind the page and the book. */
static void take_words(struct asked *asked, int words, char **word)
{
    const char *script = NULL;
    bool raw = false;

    for (int at = 0; at < words; at++) {
        const char *value = at + 1 < words ? word[at + 1] : "";

        if (strcmp(word[at], "--raw-script") == 0) {
            raw = true;
            continue;
        }
        at++;
        if (strcmp(word[at - 1], "--script") == 0)
            script = value;
        else if (strcmp(word[at - 1], "--stop") == 0)
            asked->stop = (uint32_t)strtoul(value, NULL, 16);
        else if (strcmp(word[at - 1], "--state") == 0)
            take_state(asked, value);
        else if (strcmp(word[at - 1], "--options") == 0)
            asked->options = (uint32_t)strtoul(value, NULL, 10);
        else if (strcmp(word[at - 1], "--digits") == 0)
            asked->digits = (unsigned)strtoul(value, NULL, 10);
        else if (strcmp(word[at - 1], "--columns") == 0)
            asked->columns = (unsigned)strtoul(value, NULL, 10);
        else if (strcmp(word[at - 1], "--shown-title") == 0)
            asked->shown_title = value;
        else if (strcmp(word[at - 1], "--shown-book") == 0)
            asked->shown_book = value;
        else if (strcmp(word[at - 1], "--shown-script") == 0)
            asked->shown_script = value;
        else
            fail("unknown word: %s", word[at - 1]);
    }
    if (script != NULL)
        take_script(asked, script, raw);
}

static int tell_command(const char *path)
{
    struct node *root = page_of(path), *command = root != NULL ? find(root, "pre", NULL) : NULL;

    if (command == NULL)
        return 1;
    printf("%s\n", text_of(command));
    return 0;
}

int main(int argc, char **argv)
{
    static struct asked asked = {.stop = SECOND_WORDS, .columns = 16};
    static struct expected expected;
    struct node *root;

    if (argc == 3 && strcmp(argv[1], "--command") == 0)
        return tell_command(argv[2]);
    if (argc < 3)
        fail("usage: page_checker PAGE BOOK [WORDS OF THE REPORT]");
    take_words(&asked, argc - 3, argv + 3);
    take_book(&asked, argv[2]);
    root = page_of(argv[1]);
    if (root != NULL) {
        expect(&expected, &asked);
        check_rules(root);
        check_words(root, &asked, &expected);
        check_stands(root, &asked, &expected);
        check_program(root, &asked, &expected);
    }
    printf("%lu passed, %lu failed\n", passed, failed);
    return failed > 0;
}
