/* The demonstration: an example lift's panel, level and chime, who can write the level, and who did. */
#define _DEFAULT_SOURCE
#include "demo.h"

#include "desk.h"
#include "drawing.h"
#include "plural.h"
#include "run.h"
#include "texts.h"
#include "two.h"
#include "watch.h"
#include "wave.h"

#include <limits.h>
#include <stdio.h>
#include <string.h>
#include <unistd.h>

/* Where dispatcher.asm waits for the next call (its label asleep), and how many digits its wiring begins with. */
enum { DEMO_STOP = 0x010, DEMO_DIGITS = 2 };

static char *path_in(const char *folder, const char *file)
{
    size_t length = strlen(folder) + 1 + strlen(file) + 1;
    char *path = take_memory(length, 1);

    snprintf(path, length, "%s/%s", folder, file);
    return path;
}

/* What the chime said between two waits. */
static bool show_strokes(const struct run *run)
{
    struct sound sound;
    bool faultless = hear(&sound, run);
    size_t strokes = strokes_in(&sound);

    if (strokes == 0)
        printf("heard no stroke\n");
    else
        printf("heard %zu stroke%s%s\n", strokes, plural(strokes),
               strokes == 1 ? ": up" : strokes == 2 ? ": down" : "");
    give_back(sound.outputs);
    return faultless;
}

/* Lets the run's events happen, with a stop at each wait for a call, at which the panel is shown and the chime told. */
static enum status demo_run(struct run *run)
{
    const struct look look = {false, DEMO_DIGITS, COLUMNS_USUAL};
    struct run part = *run;

    for (;;) {
        if (run_events(&part, DEMO_STOP) != GALHOVEIA_DONE)
            return REFUSED;
        run->done += part.done;
        run->end = part.end;
        if (part.reason != GALHOVEIA_AT_ADDRESS)
            return DONE;
        if (!show_picture(part.book, &part.end, "the picture", look)
            || !show_level(stdout, part.book, &part.end, "the level"))
            return REFUSED;
        if (!show_strokes(&part))
            return FAULT;
        go_on(&part);
        printf("\n");
    }
}

static enum status demo_of(const struct book *book, struct bytes script)
{
    struct run run = {.book = book, .events = script};
    struct watch watch = {.count = 0};
    enum status status = make_fresh(&run.start, 0, "a fresh machine") ? demo_run(&run) : REFUSED;

    if (status != DONE)
        return status;
    printf("\n3. Who can write the level cells: these instructions and no others\n\n");
    if (!show_level_writers(book) || !watch_level(&watch, book))
        return REFUSED;
    printf("\n4. Who did write them in this run\n\n");
    return show_changes(&watch, &run) ? DONE : FAULT;
}

static enum status demo_two_cars(const struct book *book, struct bytes script)
{
    struct two_cars cars = {.book = book, .script = script};

    for (int car = 0; car < CARS; car++) {
        cars.car[car].stop = GALHOVEIA_NO_STOP;
        if (!make_fresh(&cars.car[car].state, 0, "a fresh machine"))
            return REFUSED;
    }
    return run_two_cars(&cars, (struct look){false, DEMO_DIGITS, COLUMNS_BESIDE}, false);
}

/* Where make install has put the examples, beside the folder of the program itself, which the system knows where it was
   called by its name alone. The caller gives it back. */
static char *installed_examples(void)
{
    char program[PATH_MAX] = "";
    ssize_t length;
    char *slash;

    if (strchr(desk_called, '/') != NULL) {
        snprintf(program, sizeof program, "%s", desk_called);
    } else {
        length = readlink("/proc/self/exe", program, sizeof program - 1);
        program[length > 0 ? length : 0] = '\0';
    }
    slash = strrchr(program, '/');
    if (slash != NULL)
        *slash = '\0';
    return path_in(program, "../share/galhoveia/examples");
}

static bool has_example(const char *folder)
{
    char *book = path_in(folder, "dispatcher.book");
    bool there = access(book, R_OK) == 0;

    give_back(book);
    return there;
}

enum status work_demo(const struct command *command, int count, char **words)
{
    const char *folder[1] = {"examples"};
    char *installed = installed_examples();
    const struct option known[] = {{NULL, NULL, NULL}};
    struct book book;
    struct bytes script, two_cars;
    char *book_path, *script_path, *two_cars_path;
    enum status status = REFUSED;

    if (count > 0)
        take_words(command, count, words, known, folder, 1);
    else if (!has_example(folder[0]) && has_example(installed))
        folder[0] = installed;
    book_path = path_in(folder[0], "dispatcher.book");
    script_path = path_in(folder[0], "dispatcher.script");
    two_cars_path = path_in(folder[0], "science-block.script");
    script = read_script(script_path, false, script_from_text);
    two_cars = read_script(two_cars_path, false, two_cars_from_text);
    if (read_book(book_path, &book)) {
        printf("1. The book\n\n");
        show_book(book_path, &book);
        printf("\n2. The script %s, shown whenever the program waits for a call (stop at $%03X):\n   once it is ready, "
               "then after a call below the ground stop, then after one above it; and heard: the chime\n"
               "   strikes once for up, twice for down\n\n", script_path, DEMO_STOP);
        status = demo_of(&book, script);
        if (status == DONE) {
            printf("\n5. Two cars over this program, each with a chip of its own, by the script %s\n\n", two_cars_path);
            status = demo_two_cars(&book, two_cars);
        }
        give_back(book.file.at);
    }
    give_back(script.at);
    give_back(two_cars.at);
    give_back(book_path);
    give_back(script_path);
    give_back(two_cars_path);
    give_back(installed);
    return status;
}
