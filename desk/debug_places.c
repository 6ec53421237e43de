/* The debugger's places: marks to come back to, and states in files. */
#define _DEFAULT_SOURCE
#include "debug_words.h"

#include "plural.h"

#include <stdio.h>
#include <string.h>
#include <sys/stat.h>

static const char start_name[] = "start";

/* ---- Marks ---- */

static struct mark *mark_named(struct debugger *debugger, const char *name)
{
    for (size_t at = 0; at < debugger->marks; at++)
        if (strcmp(debugger->mark[at].name, name) == 0)
            return &debugger->mark[at];
    return NULL;
}

static void judge_name(const struct typed *typed, const char *name)
{
    static const char letters[] = "abcdefghijklmnopqrstuvwxyzABCDEFGHIJKLMNOPQRSTUVWXYZ0123456789.-_";

    if (strspn(name, letters) < strlen(name) || strlen(name) > MARK_NAME_MOST)
        misused(typed, "a mark's name has at most 31 letters, digits, . - or _, unlike", name);
    if (strcmp(name, start_name) == 0)
        misused(typed, "the place where the session began is already called", name);
}

/* The lowest number that no mark has as its name; with one mark more than there may be, one is always free. */
static void number_name(struct debugger *debugger, char name[MARK_NAME_MOST + 1])
{
    unsigned number = 0;

    do
        snprintf(name, MARK_NAME_MOST + 1, "%u", ++number);
    while (mark_named(debugger, name) != NULL);
}

static void show_place(const struct debugger *debugger, const struct place *place)
{
    printf("after %llu event%s", (unsigned long long)place->done, plural(place->done));
    if (debugger->script.length > 0)
        printf(", %zu of the script's %zu", place->next, debugger->script.length);
    printf(": ");
    show_processor(&place->state);
    printf("\n");
}

/* A mark that moves becomes the newest. */
void do_mark(struct debugger *debugger, const struct typed *typed)
{
    struct mark made = {.place = debugger->now}, *there;

    if (typed->count > 0) {
        judge_name(typed, typed->argument[0]);
        strcpy(made.name, typed->argument[0]);
    } else {
        number_name(debugger, made.name);
    }
    there = mark_named(debugger, made.name);
    if (there == NULL && debugger->marks == MARKS_MOST)
        fail("there are %d marks already, and no more are kept; a mark that is there can be moved by its name",
             MARKS_MOST);
    if (there != NULL) {
        debugger->marks--;
        memmove(there, there + 1, (size_t)(debugger->mark + debugger->marks - there) * sizeof *there);
    }
    debugger->mark[debugger->marks++] = made;
    printf("mark %s %s\n", made.name, there != NULL ? "moved here" : "kept");
}

void do_back(struct debugger *debugger, const struct typed *typed)
{
    const char *name = typed->count > 0 ? typed->argument[0] : start_name;
    const struct mark *mark = mark_named(debugger, name);

    if (typed->count == 0 && debugger->marks > 0)
        mark = &debugger->mark[debugger->marks - 1];
    if (mark == NULL && strcmp(name, start_name) != 0)
        fail("there is no mark %s; marks lists them", name);
    debugger->now = mark != NULL ? mark->place : debugger->start;
    printf("back at %s%s\n", mark != NULL ? "mark " : "the start", mark != NULL ? mark->name : "");
    show_where(debugger);
}

void do_marks(struct debugger *debugger, const struct typed *typed)
{
    (void)typed;
    printf("  %s, ", start_name);
    show_place(debugger, &debugger->start);
    for (size_t at = 0; at < debugger->marks; at++) {
        printf("  %s, ", debugger->mark[at].name);
        show_place(debugger, &debugger->mark[at].place);
    }
}

/* ---- Files ---- */

void do_save(struct debugger *debugger, const struct typed *typed)
{
    bool force = false;
    const char *path = NULL;

    for (size_t at = 0; at < typed->count; at++)
        if (is_argument(typed, at, "--force"))
            force = true;
        else if (path == NULL && strncmp(typed->argument[at], "--", 2) != 0)
            path = typed->argument[at];
        else
            misused(typed, "not understood:", typed->argument[at]);
    if (path == NULL)
        misused(typed, "something is missing behind", typed->word->name);
    keep_input(path, debugger->book_path);
    keep_input(path, debugger->script_path);
    save_state(path, &debugger->now.state, force, NULL, NULL);
}

/* What is no ordinary file, as a pipe, could keep the session waiting. */
void do_load(struct debugger *debugger, const struct typed *typed)
{
    const char *path = typed->argument[0];
    struct state state;
    struct stat there;

    if (stat(path, &there) == 0 && !S_ISREG(there.st_mode))
        fail("cannot read %s: it is no ordinary file", path);
    read_state(path, &state);
    if (!is_state(debugger->book, &state, path))
        return;
    debugger->now.state = state;
    printf("state taken from %s\n", path);
    show_where(debugger);
}
