/* The desk command: panel books, machine states and scripts as files, worked on by the library of galhoveia.h. */
#include "desk.h"

#include "command.h"
#include "debug.h"
#include "demo.h"
#include "drawing.h"
#include "explain.h"
#include "made.h"
#include "manual.h"
#include "patch.h"
#include "progress.h"
#include "report.h"
#include "texts.h"
#include "trace.h"
#include "two.h"
#include "watch.h"
#include "wave.h"
#include "xref.h"

#include <stdio.h>
#include <string.h>

/* ---- The commands ---- */

static enum status work_fresh(const struct command *command, int count, char **words)
{
    const char *path[1], *options = "0";
    bool force = false;
    const struct option known[] = {{"--options", &options, NULL}, {"--force", NULL, &force}, {NULL, NULL, NULL}};
    struct state state;

    take_words(command, count, words, known, path, 1);
    may_write(path[0], force);
    if (!make_fresh(&state, decimal_from(command, options, UINT32_MAX), "a fresh machine"))
        return REFUSED;
    write_state(path[0], &state, force);
    printf("%s: a fresh machine\n", path[0]);
    return DONE;
}

static uint32_t rate_from(const struct command *command, const char *rate)
{
    uint32_t hertz = decimal_from(command, rate, UINT32_MAX);

    if (hertz != RATE_USUAL && hertz != RATE_FAST)
        wrong_use(command, "the rate of a sound clock is 32768 or 112500, not", rate);
    return hertz;
}

/* What is wanted of a run beside its end. */
struct wishes {
    struct watch watch;
    const char *wave, *save;
    uint32_t rate;
    bool show, force;
    struct look look;
};

static bool make_wave(const struct wishes *wishes, const struct run *run)
{
    struct sound sound;
    bool faultless = hear(&sound, run);

    if (faultless)
        write_wave(wishes->wave, &sound, wishes->rate, wishes->force);
    give_back(sound.outputs);
    return faultless;
}

static enum status fulfil(struct wishes *wishes, const struct run *run)
{
    bool faultless = wishes->watch.count == 0 || show_changes(&wishes->watch, run);

    if (wishes->wave != NULL)
        faultless = make_wave(wishes, run) && faultless;
    if (wishes->save != NULL)
        save_state(wishes->save, &run->end, wishes->force, wishes->wave, "the sound");
    if (wishes->show
        && !(show_picture(run->book, &run->end, "the picture", wishes->look)
             && show_level(stdout, run->book, &run->end, "the level")))
        return faultless ? REFUSED : FAULT;
    return faultless ? DONE : FAULT;
}

/* The run's events from its start, and what is wanted of it. */
static enum status run_and_fulfil(struct run *run, uint32_t stop, struct wishes *wishes)
{
    uint32_t refusal = run_events(run, stop);
    enum status status = REFUSED;

    if (refusal == GALHOVEIA_DONE || refusal == GALHOVEIA_UNLISTED_WORD)
        status = fulfil(wishes, run);
    return refusal != GALHOVEIA_DONE && status == DONE ? REFUSED : status;
}

static enum status work_run(const struct command *command, int count, char **words)
{
    const char *others[2], *digits = NULL, *columns = NULL, *cell = NULL, *rate = NULL;
    bool raw_script = false, level = false;
    struct course course = {NULL, NULL, NULL};
    struct wishes wishes = {.watch = {.count = 0}, .rate = RATE_USUAL};
    const struct option known[] = {{"--stop", &course.stop, NULL}, {"--state", &course.state, NULL},
                                   {"--save", &wishes.save, NULL}, {"--options", &course.options, NULL},
                                   {"--digits", &digits, NULL},    {"--columns", &columns, NULL},
                                   {"--watch", &cell, NULL},       {"--watch-level", NULL, &level},
                                   {"--wav", &wishes.wave, NULL},  {"--rate", &rate, NULL},
                                   {"--force", NULL, &wishes.force},
                                   {"--raw-script", NULL, &raw_script},
                                   {"--show", NULL, &wishes.show}, {NULL, NULL, NULL}};
    uint32_t stop, cell_address = 0;
    struct book book;
    struct run run = {.book = &book};
    enum status status = REFUSED;

    take_words(command, count, words, known, others, 2);
    wishes.look = look_from(command, (struct look){false, 0, COLUMNS_USUAL}, digits, columns);
    stop = stop_from(command, &course);
    if (cell != NULL)
        cell_address = hex_from(command, cell);
    if (rate != NULL && wishes.wave == NULL)
        wrong_use(command, "--rate is for the file of", "--wav");
    if (rate != NULL)
        wishes.rate = rate_from(command, rate);
    if (!wishes.show && (digits != NULL || columns != NULL))
        wrong_use(command, "for what is shown by --show:", digits != NULL ? "--digits" : "--columns");
    if (wishes.force && wishes.wave == NULL && wishes.save == NULL)
        wrong_use(command, "for the files of --save and --wav:", "--force");
    may_write_both(command, wishes.wave, wishes.save, wishes.force, "state and sound go into two files, not both into");
    for (int at = 0; at < 2; at++) {
        keep_input(wishes.wave, others[at]);
        keep_input(wishes.save, others[at]);
    }
    keep_input(wishes.wave, course.state);
    run.events = read_script(others[1], raw_script, script_from_text);
    if (start_from(command, &course, "a fresh machine", &run.start) && read_book(others[0], &book)) {
        if (wishes.show)
            may_draw(&book, wishes.look);
        if ((!level || watch_level(&wishes.watch, &book))
            && (cell == NULL || watch_cell(&wishes.watch, &book, cell_address, "")))
            status = run_and_fulfil(&run, stop, &wishes);
        give_back(book.file.at);
    }
    give_back(run.events.at);
    return status;
}

static enum status work_level(const struct command *command, int count, char **words)
{
    const char *others[2];
    const struct option known[] = {{NULL, NULL, NULL}};
    struct book book;
    struct state state;
    bool done;

    take_words(command, count, words, known, others, 2);
    read_state(others[1], &state);
    if (!read_book(others[0], &book))
        return REFUSED;
    done = show_level(stdout, &book, &state, others[1]);
    give_back(book.file.at);
    return done ? DONE : REFUSED;
}

static enum status work_picture(const struct command *command, int count, char **words)
{
    const char *others[2], *digits = NULL, *columns = NULL;
    bool raw = false, done;
    const struct option known[] = {
        {"--raw", NULL, &raw}, {"--digits", &digits, NULL}, {"--columns", &columns, NULL}, {NULL, NULL, NULL}};
    struct look look;
    struct book book;
    struct state state;

    take_words(command, count, words, known, others, 2);
    look = look_from(command, (struct look){raw, 0, COLUMNS_USUAL}, digits, columns);
    read_state(others[1], &state);
    if (!read_book(others[0], &book))
        return REFUSED;
    may_draw(&book, look);
    done = show_picture(&book, &state, others[1], look);
    give_back(book.file.at);
    return done ? DONE : REFUSED;
}

static enum status work_writers(const struct command *command, int count, char **words)
{
    const char *others[2];
    bool level = false, done;
    const struct option known[] = {{"--level", NULL, &level}, {NULL, NULL, NULL}};
    uint32_t cell = 0;
    struct book book;

    for (int at = 0; at < count; at++)
        level = level || strcmp(words[at], "--level") == 0;
    take_words(command, count, words, known, others, level ? 1 : 2);
    if (!level)
        cell = hex_from(command, others[1]);
    if (!read_book(others[0], &book))
        return REFUSED;
    done = level ? show_level_writers(&book) : show_writers(&book, cell, "");
    give_back(book.file.at);
    return done ? DONE : REFUSED;
}

static enum status work_listing(const struct command *command, int count, char **words)
{
    const char *path[1], *out = NULL;
    bool force = false;
    const struct option known[] = {{"--out", &out, NULL}, {"--force", NULL, &force}, {NULL, NULL, NULL}};
    uint8_t text[GALHOVEIA_LISTING_BYTES_MOST];
    struct book book;
    size_t length;

    take_words(command, count, words, known, path, 1);
    if (force && out == NULL)
        wrong_use(command, "--force is for the file of", "--out");
    if (out != NULL)
        may_write(out, force);
    keep_input(out, path[0]);
    if (!read_book(path[0], &book))
        return REFUSED;
    length = write_listing(book.program.at, text);
    give_back(book.file.at);
    if (out == NULL) {
        fwrite(text, 1, length, stdout);
        return DONE;
    }
    write_file(out, text, length, force);
    printf("%s: the listing of %s, %d lines\n", out, path[0], GALHOVEIA_WORDS);
    return DONE;
}

static enum status work_program(const struct command *command, int count, char **words)
{
    const char *others[2];
    bool force = false;
    const struct option known[] = {{"--force", NULL, &force}, {NULL, NULL, NULL}};
    uint8_t program[GALHOVEIA_PROGRAM_BYTES];
    struct bytes text;
    uint64_t value = 0;
    uint32_t refusal;

    take_words(command, count, words, known, others, 2);
    may_write(others[1], force);
    keep_input(others[1], others[0]);
    text = read_file(others[0], FILE_MOST);
    refusal = galhoveia_listing_read(text.at, text.length, program, sizeof program, &value);
    if (refusal != GALHOVEIA_DONE)
        say_refusal(others[0], refusal, value);
    if (refusal == GALHOVEIA_LISTING)
        explain_listing(text, value);
    give_back(text.at);
    if (refusal != GALHOVEIA_DONE)
        return REFUSED;
    write_file(others[1], program, sizeof program, force);
    printf("%s: a program of %d bytes\n", others[1], GALHOVEIA_PROGRAM_BYTES);
    return DONE;
}

static enum status work_book_check(const struct command *command, int count, char **words)
{
    const char *path[1];
    const struct option known[] = {{NULL, NULL, NULL}};
    struct book book;

    take_words(command, count, words, known, path, 1);
    if (!read_book(path[0], &book))
        return REFUSED;
    show_book(path[0], &book);
    give_back(book.file.at);
    return DONE;
}

static struct bytes read_body(const char *path, struct bytes (*from_text)(const char *, const char *))
{
    size_t length = strlen(path);

    if (length >= 4 && strcmp(path + length - 4, ".bin") == 0)
        return read_file(path, FILE_MOST);
    return read_text(path, FILE_MOST, from_text);
}

static enum status work_book_make(const struct command *command, int count, char **words)
{
    const char *others[4];
    bool force = false, done;
    const struct option known[] = {{"--force", NULL, &force}, {NULL, NULL, NULL}};
    struct bytes program, wiring, level;

    take_words(command, count, words, known, others, 4);
    may_write(others[0], force);
    for (int at = 1; at < 4; at++)
        keep_input(others[0], others[at]);
    program = read_body(others[1], program_from_text);
    wiring = read_body(others[2], wiring_from_text);
    level = read_body(others[3], level_from_text);
    done = write_book(others[0], program, wiring, level, force);
    give_back(program.at);
    give_back(wiring.at);
    give_back(level.at);
    return done ? DONE : REFUSED;
}

/* ---- Help ---- */

static const char *const run_texts[] = {script_help, NULL};
static const char *const debug_texts[] = {script_help, NULL};
static const char *const run_two_texts[] = {two_cars_help, NULL};
static const char *const listing_texts[] = {listing_help, NULL};
static const char *const make_texts[] = {program_help, wiring_help, level_help, NULL};

#define STATE_HELP "A state file is the memory (1,024 bytes), then the record (45 bytes).\n"

static enum status work_manual(const struct command *command, int count, char **words);

static const struct command commands[] = {
    {"demo", "demo [FOLDER]", "runs the example dispatcher and shows what the desk can do",
     "FOLDER holds dispatcher.book, dispatcher.script and science-block.script. If it is not given, it is examples, or\n"
     "where that has none, the folder in which make install has put them.\n", NULL,
     work_demo, NULL},
    {"fresh", "fresh STATE [--options N] [--force]", "makes the state of a chip just switched on",
     "N is 0 to 7: 1 watchdog on, 2 bonding bit BD0, 4 bonding bit BD1, added up; 0 if not given.\n"
     STATE_HELP, NULL, work_fresh, NULL},
    {"run", "run BOOK SCRIPT [--stop HEX] [--state FILE | --options N] [--save FILE] [--force]\n"
            "                [--raw-script] [--show [--digits N] [--columns N]] [--watch CELL] [--watch-level]\n"
            "                [--wav FILE [--rate HZ]]",
     "lets a script's events happen to a book's chip",
     "The chip is fresh, or as in the state FILE. --stop ends the run after a cycle that leaves PC at HEX, 000 to FFF; any\n"
     "number above is no address, and ends nothing. --save writes the state after the run, also after one that stopped\n"
     "before a word that is no instruction (refusal 6). --show shows picture and level after it, drawn as desk picture\n"
     "--help tells.\n"
     "--watch tells each change of a cell during the run: the event's number, counted from 0, the cell before and after\n"
     "it, and the instruction that did it; then how many of the cell's writers (desk writers) changed it, and which\n"
     "never did. CELL is in hex: a data, display or scan cell. --watch-level watches both digits of the level.\n"
     "--wav writes what the sound channels put out, a sample for each sound clock that was done, channel 1 left and\n"
     "channel 2 right, as a WAV file. HZ is the sound clock: 32768 (if not given) or 112500.\n",
     run_texts, work_run, NULL},
    {"trace", "trace BOOK SCRIPT [--from N] [--count N] [--state FILE | --options N] [--raw-script]\n"
              "                  [--vcd FILE [--lines] [--force]]",
     "shows a script's events one by one: what each executed, and what it changed",
     "The chip is fresh, or as in the state FILE. A line has the event's number, counted from 0, and its word; the line\n"
     "of the program's listing (desk listing) at which PC stood, in brackets where the event did not execute it; PC, AC,\n"
     "CY and mode after the event; then each memory cell and each port's pins that it changed, before -> after. A cycle\n"
     "that took an interrupt or passed asleep says so. The lines begin with event --from N, 0 if not given; the events\n"
     "before it happen all the same. --count N shows N events, or all that there are. A word that is no instruction ends\n"
     "the trace (refusal 6); what was shown before it stands.\n"
     "--vcd writes the same events as a value change dump, which GTKWave opens: PC, AC, CY and mode, the pins and the\n"
     "cells of ports A to D, Timer0's counter, the level's digits and what the sound channels put out. A time unit is a\n"
     "cycle: what an event leaves stands at the number of cycles done so far, those before --from among them. A dump has\n"
     "1,073,741,824 bytes at the most. With --vcd the lines are shown only if --lines is given.\n",
     run_texts, work_trace, NULL},
    {"run-two", "run-two BOOK SCRIPT [--stop0 HEX] [--state0 FILE | --options0 N] [--save0 FILE]\n"
                "                    [--stop1 HEX] [--state1 FILE | --options1 N] [--save1 FILE]\n"
                "                    [--force] [--raw-script] [--digits N] [--columns N]",
     "lets a script's entries happen to two cars, each with a chip of its own, over one book",
     "Each chip is fresh, or as in its state FILE. The options with a car's number are those of desk run, for that car. A\n"
     "car stops after a cycle that leaves its PC at HEX, or before a word that is no instruction, which is no refusal\n"
     "here; it then takes no more entries, and the other goes on. The run ends when both have stopped so, or with the\n"
     "script. What comes of a car is what desk run makes of its own entries. The entries read are all that the run has\n"
     "passed, those of a stopped car among them.\n"
     "Both panels are shown side by side, with their levels, drawn as desk picture --help tells, with 8 elements in a row\n"
     "if --columns is not given. Where a level is refused (9), the panels are shown all the same.\n",
     run_two_texts, work_run_two, NULL},
    {"debug", "debug BOOK [--state FILE | --options N] [--script FILE [--raw-script]] [--digits N] [--columns N]\n"
              "                  [--echo]",
     "goes through a chip's events step by step, by words that are typed or piped in",
     "The chip is fresh, or as in the state FILE. Each line read is a word with what belongs to it, or events of a\n"
     "script; # begins a comment. What is wrong with a line is said, changes nothing, and the session goes on; quit or\n"
     "the end of input ends it, with status 0. At a terminal there is a prompt, ctrl-C breaks off a run or the line that\n"
     "is being typed, and an empty line right behind a step, next, run, to or until does it again; rlwrap desk debug BOOK\n"
     "gives it a history. --echo shows prompt and lines also where they are piped in, so that a session can be recorded.\n"
     "--digits and --columns are for the word panel.\n",
     debug_texts, work_debug, list_debug_words},
    {"level", "level BOOK STATE", "tells the level that a state's panel stands at", STATE_HELP, NULL, work_level, NULL},
    {"picture", "picture BOOK STATE [--digits N] [--columns N] [--raw]", "draws what a state's panel shows",
     "# is lit, . is dark, in the order of the wiring. With --digits N the first 7N elements are drawn as N\n"
     "seven-segment digits, each wired in the order a to g. --columns N puts N elements in a row (16 if not given).\n"
     "--raw writes one byte, 0 or 1, for each element instead.\n", NULL, work_picture, NULL},
    {"writers", "writers BOOK CELL | writers BOOK --level", "lists every instruction that can change a cell",
     "CELL is in hex: a data, display or scan cell. --level asks for both digits of the level.\n"
     "Each instruction is shown by its line in the program's listing (desk listing). desk xref shows every cell's.\n",
     NULL, work_writers, NULL},
    {"xref", "xref BOOK [--cell HEX | --all]", "shows the writers of every cell: the program's cross-reference",
     "The library keeps them in tables: under each data, display and scan cell the instructions that name it and can\n"
     "change it, and once for all cells those that can change a cell through $00F.\n"
     "The writers of a cell are its own joined with these. Without an option it is told how many there are; --all shows\n"
     "each by its line in the program's listing (desk listing). Cells without writers of their own are left out, but for\n"
     "the level's digits. --cell asks the tables for one cell and shows what desk writers shows of it. desk patch\n"
     "replaces a word and tells what changes.\n", NULL,
     work_xref, NULL},
    {"patch", "patch BOOK ADDRESS WORD OUT [--force]", "makes a book with another word at one address of the program",
     "ADDRESS is in hex, 000 to FFF. WORD has four hex digits, and need not be an instruction. OUT gets the new book,\n"
     "with BOOK's wiring and level. The address's line in the listing (desk listing) is shown before and now; then each\n"
     "cell that has other writers than before, with - in front of those that are gone and + in front of new ones.\n"
     "Writers through $00F are writers of every cell: where these are others, they are shown once for all cells, and the\n"
     "cell that the old or the new word names is shown besides.\n", NULL, work_patch, NULL},
    {"report", "report BOOK [--script FILE [--stop HEX] [--raw-script] [--state FILE | --options N]] --out FILE.html\n"
               "                   [--force] [--digits N] [--columns N] [--title TEXT]",
     "writes a page on a book, and on a script's run over it, for the inspector",
     "The page is one file of HTML that fetches nothing and prints on A4. It tells what is in the book; of a script how its\n"
     "run ended, and the panel as a picture and its level at the start, at each cycle that left PC at HEX and at the end,\n"
     "with the level that the old emulator made of the same digits, taken as decimal; who can write the level cells, and\n"
     "in the run who did; every refusal; what is proved and where; the cross-reference; the listing; the commit that the\n"
     "desk is made of, and the command line. The chip is fresh, or as in the state FILE; digits and columns are those of\n"
     "desk picture. Equal stops one after the other are told once, and a page has 40 panels and 200 changes at most; how\n"
     "many more there were is told. The same command on the same files gives the same page.\n"
     "Where something was refused, of the run, a picture or a level, the page is written all the same and tells of it, and\n"
     "the status is 1. It is not written where the book itself is refused, nor after a fault.\n",
     run_texts, work_report, NULL},
    {"listing", "listing BOOK [--out FILE [--force]]", "writes a book's program as text",
     "The listing goes to standard output, or into FILE. desk program reads it back; desk patch replaces one word.\n",
     listing_texts, work_listing, NULL},
    {"program", "program LISTING OUT [--force]", "reads a program back from its listing",
     "OUT gets the 8,192 bytes of a book's program body; desk book make takes them where OUT's name ends in .bin. Only\n"
     "what desk listing can have written is taken; of any other text the first bad line is told.\n", listing_texts,
     work_program, NULL},
    {"book check", "book check BOOK", "judges a book and tells what is in it", NULL, NULL, work_book_check, NULL},
    {"book make", "book make BOOK PROGRAM WIRING LEVEL [--force]", "makes a book of its three bodies",
     "Each body is a text as below, or, where the file's name ends in .bin, the body's bytes.\n", make_texts,
     work_book_make, NULL},
    {"manual", "manual", "writes the manual page desk(1), in roff",
     "All that the help of the commands says, as man shows it: desk manual >desk.1 && man ./desk.1\n", NULL,
     work_manual, NULL},
};

enum { COMMANDS = sizeof commands / sizeof commands[0] };

/* What holds for all commands. */
static const char closing[] =
    "No file is written over unless --force is given.\n"
    "Exit status: 0 done; 1 refused by the library, which is said with its number and value; 2 wrong use,\n"
    "or a file that cannot be read, is in the way, or is not what it should be; 3 a fault of the library,\n"
    "which a watched run, a run that is heard, a trace, the debugger, the demo, a report, a patch and whatever takes a\n"
    "listing's lines or a cross-reference look for.\n";

static void print_overview(FILE *to)
{
    fprintf(to, "desk works on panel books of the SH67P54. Its commands:\n\n");
    for (int at = 0; at < COMMANDS; at++)
        fprintf(to, "  desk %s\n      %s\n", commands[at].usage, commands[at].about);
    fprintf(to, "\ndesk COMMAND --help tells more of one, desk --version which desk it is.\n%s", closing);
}

static void print_help(const struct command *command)
{
    printf("usage: desk %s\n\n%c%s.\n", command->usage, command->about[0] - 'a' + 'A', command->about + 1);
    if (command->help != NULL)
        printf("%s", command->help);
    if (command->list != NULL) {
        printf("\n");
        command->list(stdout);
    }
    for (int at = 0; command->texts != NULL && command->texts[at] != NULL; at++)
        printf("\n%s", command->texts[at]);
}

static enum status work_manual(const struct command *command, int count, char **words)
{
    const struct option known[] = {{NULL, NULL, NULL}};

    take_words(command, count, words, known, NULL, 0);
    print_manual(commands, COMMANDS, closing);
    return DONE;
}

/* Answers how many words of the command line the command's name takes, 0 if they do not name it. */
static int words_naming(const struct command *command, int argc, char **argv)
{
    char two_words[64];

    if (argc > 1 && strcmp(argv[1], command->name) == 0)
        return 1;
    if (argc > 2 && snprintf(two_words, sizeof two_words, "%s %s", argv[1], argv[2]) < (int)sizeof two_words
        && strcmp(two_words, command->name) == 0)
        return 2;
    return 0;
}

static enum status finish(enum status status)
{
    if (fflush(stdout) != 0 || ferror(stdout)) {
        fprintf(stderr, "desk: the output could not be written whole\n");
        return WRONG_USE;
    }
    return status;
}

static bool asks_for_help(const char *word)
{
    return strcmp(word, "--help") == 0 || strcmp(word, "-h") == 0;
}

static enum status no_such_command(int argc, char **argv)
{
    fprintf(stderr, "desk: no such command: %s%s%s\ndesk --help names them\n", argv[1], argc > 2 ? " " : "",
            argc > 2 ? argv[2] : "");
    return WRONG_USE;
}

/* Help by its word: of all, or of the command behind it. */
static enum status help_on(int argc, char **argv)
{
    if (argc == 1) {
        print_overview(stdout);
        return DONE;
    }
    for (int at = 0; at < COMMANDS; at++)
        if (words_naming(&commands[at], argc, argv) == argc - 1) {
            print_help(&commands[at]);
            return DONE;
        }
    return no_such_command(argc, argv);
}

struct line {
    int argc;
    char **argv;
};

static enum status work_line(void *with)
{
    const struct line *line = with;
    const int argc = line->argc;
    char **const argv = line->argv;

    if (argc > 1 && (asks_for_help(argv[1]) || (argc == 3 && strcmp(argv[1], "book") == 0 && asks_for_help(argv[2])))) {
        print_overview(stdout);
        return DONE;
    }
    if (argc > 1 && strcmp(argv[1], "help") == 0)
        return help_on(argc - 1, argv + 1);
    if (argc == 2 && strcmp(argv[1], "--version") == 0) {
        printf("desk, galhoveia " GALHOVEIA_VERSION ", commit %s\n", made_of);
        return DONE;
    }
    for (int at = 0; at < COMMANDS; at++) {
        int taken = words_naming(&commands[at], argc, argv);

        if (taken == 0)
            continue;
        for (int word = 1 + taken; word < argc; word++)
            if (asks_for_help(argv[word])) {
                print_help(&commands[at]);
                return DONE;
            }
        return commands[at].work(&commands[at], argc - 1 - taken, argv + 1 + taken);
    }
    if (argc > 1)
        return no_such_command(argc, argv);
    print_overview(stderr);
    return WRONG_USE;
}

const char *desk_called = "";

enum status desk(int argc, char **argv)
{
    struct line line = {argc, argv};

    desk_called = argc > 0 ? argv[0] : "";
    start_clock();
    return finish(whole_command(work_line, &line));
}
