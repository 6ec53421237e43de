/* The debugger's lines: which word each begins with, and what stands behind it. */
#include "debug_words.h"

#include "progress.h"
#include "texts.h"

#include <ctype.h>
#include <stdio.h>
#include <string.h>
#include <strings.h>

#define BLANKS " \t"

/* ---- The words ---- */

static void do_help(struct debugger *debugger, const struct typed *typed);
static void do_quit(struct debugger *debugger, const struct typed *typed);

#define NEXT_EVENTS \
    "The next event is the script's next one; where there is no script, or at its end, it is a cycle.\n"

#define AT_MOST "At most N events, or without N the rest of the script, or where it has none 1000000 cycles.\n"

#define CELL_HELP "CELL is in hex (020, $020), or a register of the data sheet by its name (TBR).\n"

static const struct word words[] = {
    {"step", "s", "step [N]",
     "the next event, or the next N, each shown by a line",
     "Lets the next event happen, or the next N, and shows each by a line: the event's number, counted from 0, and\n"
     "its word; the listing's line at PC before it, in brackets where it was not executed; PC, AC, CY and mode after\n"
     "it; and what it changed.\n"
     NEXT_EVENTS, 0, 1, true, do_step},
    {"next", "n", "next [N]",
     "the next cycle, or the next N, with the events before it passed over",
     "Lets events happen up to the next cycle, or the next N cycles, and shows each cycle by a line, as step does;\n"
     "the other events before it happen without a line.\n"
     NEXT_EVENTS, 0, 1, true, do_next},
    {"run", "r", "run [N]",
     "the next N events, or the script's rest",
     "Lets the next N events happen, or without N the rest of the script, and tells where the chip then stands.\n"
     NEXT_EVENTS, 0, 1, true, do_run_word},
    {"to", "t", "to ADDRESS [N]",
     "until a cycle leaves PC at the address",
     "Lets events happen until a cycle leaves PC at ADDRESS (hex, 000 to FFF).\n"
     AT_MOST NEXT_EVENTS, 1, 2, true, do_to},
    {"until", "u", "until CELL [N] | until level [N]",
     "until the cell, or a digit of the level, changes; and which instruction did it",
     "Lets events happen one by one until the cell changes, or either digit of the level, and tells the event's\n"
     "number, counted from 0, the cell before and after it, and the instruction that did it.\n"
     AT_MOST NEXT_EVENTS CELL_HELP
     "One bit of a register, by its name (IRQT0), is waited for alone; of a port the latch and the pins are. A\n"
     "register is also changed by an interrupt, by another event than a cycle, or by the cycle itself, whatever it\n"
     "executes, as when Timer0 overflows or program data is read; then that is told. Of a data, display or scan cell\n"
     "the change is held against its list of writers, and one that is not in it is a fault. A cell that nothing can\n"
     "change is told at once.\n", 1, 2,
     true, do_until},
    {"mark", "m", "mark [NAME]",
     "keeps this place: state, count of events, place in the script",
     "Keeps this place under a name, or under the lowest free number: the state, the count of events and the place\n"
     "in the script. A mark of that name moves here. There are at most 64 marks, and a name has at most 31 letters,\n"
     "digits, . - or _.\n", 0, 1, false, do_mark},
    {"back", "b", "back [NAME]",
     "goes back to a mark, the newest if not named; the start where there is none",
     "Goes to a mark: the newest if no name is given, and the start of the session where there is no mark. back\n"
     "start goes to the start at any time. Marks stay.\n", 0, 1, false, do_back},
    {"marks", "ms", "marks",
     "the marks", "Shows the marks, the newest last.\n", 0, 0, false, do_marks},
    {"registers", "reg", "registers",
     "processor, stack, timers, pins, options, sound",
     "Shows what the chip has beside its memory: PC, AC, CY, mode, stack, Timer0 with its frozen nibble, base\n"
     "timer, watchdog, pins, options, a read of program data that is under way, and the sound channels.\n", 0, 0,
     false, do_registers},
    {"show", "sh", "show [NAME|CELL|CELL-CELL|all]",
     "memory: registers and bits by the data sheet's names, cells, ranges, or all",
     "Shows memory: without more the registers of the data sheet with their bits; one of them, or one bit, by its\n"
     "name (TM0, LCDON); a cell in hex (020, $020); a range of cells in rows of 16 (020-03F); or all of it. - is a\n"
     "cell that keeps nothing. A port is shown by its name as a program reads it, by pins and latch, with both beside\n"
     "it; in rows it is the latch.\n", 0, 1, false, do_show},
    {"panel", "p", "panel",
     "what the panel shows",
     "Draws what the panel shows, as desk picture --help tells, by the --digits and --columns of desk debug.\n", 0,
     0, false, do_panel},
    {"level", "lv", "level",
     "the level that the panel stands at", "Tells the level that the panel stands at.\n", 0, 0, false, do_level},
    {"list", "l", "list [ADDRESS] [N]",
     "the listing around PC, or N lines of it from an address",
     "Shows the lines of the program's listing around PC, or from ADDRESS (hex, 000 to FFF) on, N of them if given.\n"
     "The line at PC has a > before it.\n", 0, 2, false, do_list},
    {"writers", "w", "writers CELL | writers level",
     "every instruction that can change the cell, or the digits of the level",
     "Lists every instruction that can change a data, display or scan cell, or those of both digits of the level.\n"
     CELL_HELP, 1, 1, false, do_writers},
    {"script", "sc", "script",
     "how far the script is, and its next events", "Tells how many of the script's events were done, and shows the next ones.\n", 0, 0,
     false, do_script},
    {"save", NULL, "save FILE [--force]",
     "writes the state into a file",
     "Writes the state into a file, as desk run --save does. A file that is there is written over with --force\n"
     "alone. A file's name has no blanks and no #.\n", 1, 2, false, do_save},
    {"load", NULL, "load FILE",
     "takes the state from a file",
     "Takes the state from a file. The count of events and the place in the script stay. A state that is not well\n"
     "formed is refused, and the old one stays.\n", 1, 1, false, do_load},
    {"help", "h", "help [WORD]",
     "these lines, or more of one word; help EVENTS tells of events", "Lists the words, or tells of one; help EVENTS tells of events.\n", 0, 1, false,
     do_help},
    {"quit", "q", "quit",
     "ends the session, as the end of input does", "Ends the session. So does the end of input.\n", 0, 0, false, do_quit},
};

enum { WORDS = sizeof words / sizeof words[0] };

static bool is_name(const char *name, const char *text, size_t length)
{
    return name != NULL && strlen(name) == length && memcmp(name, text, length) == 0;
}

static const struct word *word_named(const char *text, size_t length)
{
    for (size_t at = 0; at < WORDS; at++)
        if (is_name(words[at].name, text, length) || is_name(words[at].brief, text, length))
            return &words[at];
    return NULL;
}

void list_debug_words(FILE *to)
{
    fprintf(to, "The words, each with its short form:\n");
    for (size_t at = 0; at < WORDS; at++)
        fprintf(to, "  %-33s %-4s %s\n", words[at].usage, words[at].brief ? words[at].brief : "", words[at].about);
    fprintf(to, "  %-33s %-4s %s\n", "EVENTS", "", "events by a script's words, as a=1 cycle*100 or (cycle sound*4)*20");
}

static void do_help(struct debugger *debugger, const struct typed *typed)
{
    const char *asked = typed->count > 0 ? typed->argument[0] : "";
    const struct word *word = word_named(asked, strlen(asked));

    (void)debugger;
    if (word != NULL)
        printf("%s%s%s\n%s", word->usage, word->brief ? "; short: " : "", word->brief ? word->brief : "", word->tells);
    else if (strcmp(asked, "EVENTS") == 0 || strcmp(asked, "events") == 0)
        printf("%s", script_help);
    else if (typed->count > 0)
        fail("%s is no word of the debugger; help lists them", asked);
    else
        list_debug_words(stdout);
}

static void do_quit(struct debugger *debugger, const struct typed *typed)
{
    (void)typed;
    debugger->over = true;
}

/* ---- Arguments ---- */

_Noreturn void misused(const struct typed *typed, const char *what, const char *argument)
{
    fail("%s%s%s; usage: %s", what, argument ? " " : "", argument ? argument : "", typed->word->usage);
}

bool is_argument(const struct typed *typed, size_t at, const char *text)
{
    return at < typed->count && strcmp(typed->argument[at], text) == 0;
}

uint64_t number_at(const struct debugger *debugger, const struct typed *typed, size_t at)
{
    const char *text = typed->argument[at];
    unsigned long long number;

    if (!number_from(text, strlen(text), debugger->most, &number))
        fail("%s is no number up to %llu; usage: %s", text, (unsigned long long)debugger->most, typed->word->usage);
    return number;
}

unsigned address_at(const struct typed *typed, size_t at)
{
    unsigned long long address;

    if (!hex_from_text(typed->argument[at], GALHOVEIA_WORDS - 1, &address))
        misused(typed, "an address is 000 to FFF in hex, not", typed->argument[at]);
    return (unsigned)address;
}

/* What the chip has beside its memory is no cell, though AC is a number in hex. */
static bool is_processor(const char *text)
{
    return strcasecmp(text, "PC") == 0 || strcasecmp(text, "AC") == 0 || strcasecmp(text, "CY") == 0;
}

struct asked cell_from(const struct typed *typed, const char *text)
{
    const struct sheet_register *found;
    unsigned bit;
    unsigned long long cell;

    if (is_processor(text))
        fail("%s is no cell, and registers tells it; the cell $0AC is 0AC", text);
    if (find_name(text, strlen(text), &found, &bit))
        return (struct asked){found->cell, bit};
    if (!hex_from_text(text, GALHOVEIA_MEMORY_BYTES - 1, &cell))
        misused(typed, "a cell is 000 to 3FF in hex or a name of the data sheet, not", text);
    return (struct asked){(unsigned)cell, BITS};
}

struct asked cell_at(const struct typed *typed, size_t at)
{
    return cell_from(typed, typed->argument[at]);
}

/* ---- Lines ---- */

/* Cuts what stands behind a word into its arguments. */
static void answer_word(struct debugger *debugger, const struct word *word, char *rest)
{
    struct typed typed = {.word = word};

    for (;;) {
        rest += strspn(rest, BLANKS);
        if (*rest == '\0')
            break;
        if (typed.count == word->most)
            misused(&typed, "too much behind", word->name);
        typed.argument[typed.count++] = rest;
        rest += strcspn(rest, BLANKS);
        if (*rest != '\0')
            *rest++ = '\0';
    }
    if (typed.count < word->least)
        misused(&typed, "something is missing behind", word->name);
    word->work(debugger, &typed);
}

/* A word of letters alone that is no event is a wrong word; anything else may be meant for an event. */
static void answer_events(struct debugger *debugger, const char *line, size_t first)
{
    size_t letters = 0;
    uint8_t event;

    while (letters < first && isalpha((unsigned char)line[letters]))
        letters++;
    if (letters == first && !event_from(line, first, &event))
        fail("%.*s is no word of the debugger and no event; help lists the words", (int)first, line);
    do_events(debugger, line);
}

static void answer(struct debugger *debugger, char *line)
{
    size_t first = strcspn(line, BLANKS);
    const struct word *word = word_named(line, first);

    if (word == NULL || (word->work != do_step && word->work != do_next))
        debugger->headed = false;
    debugger->again[0] = '\0';
    if (word == NULL) {
        answer_events(debugger, line, first);
        return;
    }
    if (word->is_run)
        memcpy(debugger->again, line, strlen(line) + 1);
    answer_word(debugger, word, line + first);
}

struct read_line {
    struct debugger *debugger;
    char *at;
    size_t length;
};

bool is_control(char letter)
{
    unsigned char byte = (unsigned char)letter;

    return (byte < ' ' && byte != '\t') || byte == 0x7F;
}

static void judge(const struct read_line *line)
{
    if (line->length > LINE_MOST)
        fail("the line is too long: it has more than %d bytes", LINE_MOST);
    for (size_t at = 0; at < line->length; at++)
        if (is_control(line->at[at]))
            fail("the line is no text: it has a control character, $%02X", (unsigned char)line->at[at]);
}

static void work_line(void *with)
{
    struct read_line line = *(struct read_line *)with;
    char again[LINE_MOST + 1];

    if (line.length > 0 && line.at[line.length - 1] == '\r')
        line.at[--line.length] = '\0';
    judge(&line);
    line.at += strspn(line.at, BLANKS);
    if (*line.at == '\0' && line.debugger->at_terminal)
        line.at = strcpy(again, line.debugger->again);
    line.at[strcspn(line.at, "#")] = '\0'; /* a comment */
    if (*line.at != '\0')
        answer(line.debugger, line.at);
}

bool debug_line(struct debugger *debugger, char *line, size_t length)
{
    struct read_line read = {debugger, line, length};

    start_clock();
    attempt(work_line, &read);
    return !debugger->over;
}
