/* What the debugger shows of book and script: panel, level, listing, writers, and the events that come. */
#include "debug_words.h"
#include "texts.h"

#include <stdio.h>
#include <string.h>

/* ---- Panel and program ---- */

void do_panel(struct debugger *debugger, const struct typed *typed)
{
    (void)typed;
    show_picture(debugger->book, &debugger->now.state, "the picture", debugger->look);
}

void do_level(struct debugger *debugger, const struct typed *typed)
{
    (void)typed;
    show_level(stdout, debugger->book, &debugger->now.state, "the level");
}

/* Lines of the listing: so many before and behind PC, and so many from an address on. */
enum { LINES_AROUND = 5, LINES_USUAL = 16 };

void do_list(struct debugger *debugger, const struct typed *typed)
{
    unsigned pc = two(debugger->now.state.record + GALHOVEIA_RECORD_PC);
    unsigned first = pc > LINES_AROUND ? pc - LINES_AROUND : 0;
    uint64_t lines = pc + LINES_AROUND + 1 - first;

    if (typed->count > 0) {
        first = address_at(typed, 0);
        lines = typed->count > 1 ? number_at(debugger, typed, 1) : LINES_USUAL;
    }
    for (unsigned address = first; address < GALHOVEIA_WORDS && address - first < lines; address++) {
        printf("%c ", address == pc ? '>' : ' ');
        show_instruction(debugger->book, address);
    }
}

void do_writers(struct debugger *debugger, const struct typed *typed)
{
    unsigned cell;

    if (is_argument(typed, 0, "level")) {
        show_level_writers(debugger->book);
        return;
    }
    cell = cell_at(typed, 0).cell;
    show_writers(debugger->book, cell, cell_meaning(debugger->book, cell));
}

/* ---- The script ---- */

/* As many pieces of the script are shown: an event with its times, or a group of such with its times. And as many
   events are looked at, so that a long script keeps nobody waiting. */
enum { PIECES_MOST = 6, GROUP_MOST = 4, EVENTS_LOOKED_AT = 1 << 24 };

/* How many equal events stand at a place of a script. */
static size_t equal_from(struct bytes script, size_t at)
{
    size_t end = at;

    while (end < script.length && script.at[end] == script.at[at])
        end++;
    return end - at;
}

/* How many times the bytes at a place stand there one behind the other. */
static size_t times_from(struct bytes script, size_t at, size_t length)
{
    size_t times = 1;

    while (length <= script.length - at - times * length
           && memcmp(script.at + at, script.at + at + times * length, length) == 0)
        times++;
    return times;
}

/* The bytes at a place that are best shown as one piece: of one kind, or a group of a few kinds that comes again. */
static size_t best_group(struct bytes script, size_t at, size_t *times)
{
    size_t length = 0, best = 1, reached = equal_from(script, at);

    *times = reached;
    for (int kinds = 0; kinds < GROUP_MOST && at + length < script.length; kinds++) {
        size_t again;

        length += equal_from(script, at + length);
        again = times_from(script, at, length);
        if (again > 1 && again * length > reached) {
            best = length;
            *times = again;
            reached = again * length;
        }
    }
    return best;
}

static void show_times(size_t times)
{
    if (times > 1)
        printf("*%zu", times);
}

static void show_events(struct bytes events)
{
    char word[EVENT_WORD_ROOM];

    for (size_t at = 0; at < events.length; at += equal_from(events, at)) {
        printf("%s%s", at > 0 ? " " : "", event_word(events.at[at], word));
        show_times(equal_from(events, at));
    }
}

/* Shows the piece at a place and answers how many events it has. */
static size_t show_piece(struct bytes script, size_t at)
{
    size_t times, length = best_group(script, at, &times);

    printf("%s", length > 1 ? " (" : " ");
    show_events((struct bytes){script.at + at, length});
    printf("%s", length > 1 ? ")" : "");
    show_times(times);
    return times * length;
}

/* The events that come next, and dots where there are more of them than are shown. */
static void show_next(struct bytes rest)
{
    const struct bytes seen = {rest.at, rest.length < EVENTS_LOOKED_AT ? rest.length : EVENTS_LOOKED_AT};
    size_t at = 0;

    for (int piece = 0; piece < PIECES_MOST && at < seen.length; piece++)
        at += show_piece(seen, at);
    printf("%s", at < rest.length ? " ..." : "");
}

void do_script(struct debugger *debugger, const struct typed *typed)
{
    const struct bytes script = debugger->script;
    const size_t done = debugger->now.next;

    (void)typed;
    if (script.length == 0) {
        printf("there is no script\n");
        return;
    }
    printf("%zu of %zu events of the script are done", done, script.length);
    if (done < script.length) {
        printf("; next:");
        show_next((struct bytes){script.at + done, script.length - done});
    }
    printf("\n");
}
