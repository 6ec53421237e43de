/* The command desk debug: a session at the terminal, or fed through a pipe. */
#define _DEFAULT_SOURCE
#include "debug.h"

#include "debug_words.h"
#include "drawing.h"
#include "interrupt.h"
#include "plural.h"
#include "texts.h"

#include <errno.h>
#include <stdio.h>
#include <string.h>
#include <unistd.h>

static const char prompt[] = "desk> ";

/* ---- A session ---- */

bool begin_debugging(struct debugger *debugger, const struct book *book, struct bytes script, const char *script_name,
                     const struct state *start, const char *start_name)
{
    *debugger = (struct debugger){.book = book, .script = script, .most = EVENTS_MOST};
    debugger->look.columns = COLUMNS_USUAL;
    debugger->start.state = *start;
    debugger->now = debugger->start;
    return is_state(book, start, start_name) && are_events(debugger, script, script_name);
}

void show_where(const struct debugger *debugger)
{
    const struct place *now = &debugger->now;

    printf("after %llu event%s: ", (unsigned long long)now->done, plural(now->done));
    show_processor(&now->state);
    printf("; at PC ");
    show_instruction(debugger->book, two(now->state.record + GALHOVEIA_RECORD_PC));
}

/* ---- Lines ---- */

/* What has come of the input, and the line that is read: of one that is too long only that it is. */
struct input {
    bool at_terminal;
    char come[LINE_MOST];
    size_t next, end; /* within it */
    char line[LINE_MOST + 2];
    size_t length;
};

enum heard { LINE, CUT_SHORT, END };

/* Reads on where all that has come is taken. What ctrl-C cuts short, the terminal has forgotten already. */
static enum heard take_more(struct input *input)
{
    ssize_t got;

    if (input->next < input->end)
        return LINE;
    if (input->at_terminal && !await_input())
        return CUT_SHORT;
    got = read(STDIN_FILENO, input->come, sizeof input->come);
    if (got < 0)
        fail("cannot read standard input: %s", strerror(errno));
    input->next = 0;
    input->end = (size_t)got;
    return got > 0 ? LINE : END;
}

static enum heard read_line(struct input *input)
{
    enum heard heard;
    char letter = '\0';

    input->length = 0;
    while (letter != '\n' && (heard = take_more(input)) == LINE) {
        letter = input->come[input->next++];
        if (letter != '\n' && input->length <= LINE_MOST)
            input->line[input->length++] = letter;
    }
    input->line[input->length] = '\0';
    if (letter == '\n')
        return LINE;
    return heard == END && input->length > 0 ? LINE : heard;
}

/* The line as a terminal would have shown it. */
static void echo(const struct input *input)
{
    for (size_t at = 0; at < input->length; at++)
        if (input->line[at] != '\r' || at + 1 < input->length)
            putchar(is_control(input->line[at]) ? '?' : input->line[at]);
    printf("\n");
}

/* Shows the prompt and reads a line. Whoever looks on has then seen all that was answered before. */
static enum heard next_line(struct input *input, bool echoes)
{
    enum heard heard;

    if (input->at_terminal)
        hold_ctrl_c(true);
    forget_break();
    if (input->at_terminal || echoes)
        printf("%s", prompt);
    fflush(stdout);
    heard = read_line(input);
    if (input->at_terminal)
        hold_ctrl_c(false);
    if (heard != LINE && (input->at_terminal || echoes))
        printf("\n");
    else if (echoes && !(input->at_terminal && isatty(STDOUT_FILENO)))
        echo(input);
    return heard;
}

static void hold_session(struct debugger *debugger, bool echoes)
{
    struct input input = {.at_terminal = debugger->at_terminal};
    enum heard heard;

    if (debugger->at_terminal)
        take_ctrl_c();
    do
        heard = next_line(&input, echoes);
    while (heard == CUT_SHORT || (heard == LINE && debug_line(debugger, input.line, input.length)));
    if (debugger->at_terminal)
        leave_ctrl_c();
}

/* ---- The command ---- */

static void show_beginning(const struct debugger *debugger, const char *book, const char *script, const char *state)
{
    printf("%s, ", book);
    if (state != NULL)
        printf("the chip as in %s, ", state);
    else
        printf("a chip just switched on, ");
    if (script != NULL)
        printf("the script %s of %zu event%s\n", script, debugger->script.length,
               plural(debugger->script.length));
    else
        printf("no script\n");
    show_where(debugger);
    if (debugger->at_terminal)
        printf("help lists the words\n");
}

enum status work_debug(const struct command *command, int count, char **words)
{
    const char *path[1], *script_path = NULL, *start_name = "a fresh machine", *digits = NULL, *columns = NULL;
    bool raw_script = false, echoes = false;
    struct course course = {NULL, NULL, NULL};
    const struct option known[] = {{"--state", &course.state, NULL},    {"--options", &course.options, NULL},
                                   {"--script", &script_path, NULL},    {"--digits", &digits, NULL},
                                   {"--columns", &columns, NULL},       {"--raw-script", NULL, &raw_script},
                                   {"--echo", NULL, &echoes},           {NULL, NULL, NULL}};
    struct debugger *debugger;
    struct book book;
    struct bytes script = {NULL, 0};
    struct state start;
    struct look look;
    enum status status = REFUSED;

    take_words(command, count, words, known, path, 1);
    look = look_from(command, (struct look){false, 0, COLUMNS_USUAL}, digits, columns);
    stop_from(command, &course);
    if (raw_script && script_path == NULL)
        wrong_use(command, "--raw-script is for the file of", "--script");
    if (script_path != NULL)
        script = read_script(script_path, raw_script, script_from_text);
    if (course.state != NULL)
        start_name = course.state;
    debugger = take_memory(1, sizeof *debugger);
    if (start_from(command, &course, start_name, &start) && read_book(path[0], &book)) {
        may_draw(&book, look);
        if (begin_debugging(debugger, &book, script, script_path, &start, start_name)) {
            debugger->look = look;
            debugger->book_path = path[0];
            debugger->script_path = script_path;
            debugger->at_terminal = isatty(STDIN_FILENO);
            show_beginning(debugger, path[0], script_path, course.state);
            hold_session(debugger, echoes);
            status = faults_said > 0 ? FAULT : DONE;
        }
        give_back(book.file.at);
    }
    give_back(debugger);
    give_back(script.at);
    return status;
}
