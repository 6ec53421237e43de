/* Two cars, each with a chip of its own, over one book. */
#define _POSIX_C_SOURCE 200809L
#include "two.h"

#include "drawing.h"
#include "progress.h"
#include "run.h"
#include "texts.h"

#include <stdlib.h>

enum { ENTRY_BYTES = 2 };

/* What a refusal that concerns one car is said of. */
static const struct {
    const char *fresh, *state, *level;
} names[CARS] = {{"a fresh machine for car 0", "the state of car 0", "the level of car 0"},
                 {"a fresh machine for car 1", "the state of car 1", "the level of car 1"}};

/* ---- The run ---- */

/* Whose state it is that is refused. At equal numbers it is car 0's, which the library refuses likewise by itself. */
static int whose_state(const struct two_cars *cars, uint32_t refusal)
{
    struct picture picture;
    uint64_t value;

    return ask_picture(cars->book, &cars->car[0].state, &picture, &value) == refusal ? 0 : 1;
}

/* The entry that has a place of the script. */
static void explain_entry(struct bytes script, uint64_t place)
{
    const uint8_t *entry = script.at + place / ENTRY_BYTES * ENTRY_BYTES;

    fprintf(stderr, "  entry %llu, counted from 0, has the car %u and ", (unsigned long long)place / ENTRY_BYTES,
            entry[0]);
    if (entry + 1 == script.at + script.length)
        fprintf(stderr, "no event\n");
    else
        fprintf(stderr, "the event $%02X\n", entry[1]);
}

static void say_refused(const struct two_cars *cars, uint32_t refusal, uint64_t value)
{
    if (refusal == GALHOVEIA_MEMORY_CELL || refusal == GALHOVEIA_RECORD)
        say_refusal(names[whose_state(cars, refusal)].state, refusal, value);
    else
        say_refusal("the run of two cars", refusal, value);
    if (refusal == GALHOVEIA_UNKNOWN_EVENT || refusal == GALHOVEIA_CAR || refusal == GALHOVEIA_CUT_ENTRY)
        explain_entry(cars->script, value);
}

/* Answers whether the library did it; a refusal is said. */
static bool run_entries(struct two_cars *cars)
{
    const struct book *book = cars->book;
    struct car *first = &cars->car[0], *second = &cars->car[1];
    uint64_t value = 0;
    uint32_t refusal;

    begin_progress("running two cars", 0);
    refusal = galhoveia_run_two(
        book->program.at, book->program.length, book->wiring.at, book->wiring.length, first->state.memory,
        sizeof first->state.memory, first->state.record, sizeof first->state.record, first->picture,
        sizeof first->picture, second->state.memory, sizeof second->state.memory, second->state.record,
        sizeof second->state.record, second->picture, sizeof second->picture, cars->script.at, cars->script.length,
        first->stop, second->stop, &first->reason, &second->reason, &cars->read, &value);
    end_progress();
    if (refusal != GALHOVEIA_DONE)
        say_refused(cars, refusal, value);
    return refusal == GALHOVEIA_DONE;
}

/* ---- What is shown of it ---- */

/* A car's panel as a text: its number, its picture, its level. Answers whether it has a level; a refusal is said. */
static bool draw_panel(const struct two_cars *cars, int car, struct look look, char **text)
{
    const struct book *book = cars->book;
    size_t length;
    FILE *to = open_memstream(text, &length);
    bool has_level;

    if (to == NULL)
        fail("not enough memory");
    fprintf(to, "car %d\n", car);
    draw_picture(to, cars->car[car].picture, book->wiring.length / GALHOVEIA_ELEMENT_BYTES, look.digits, look.columns);
    has_level = show_level(to, book, &cars->car[car].state, names[car].level);
    if (!has_level)
        fprintf(to, "no level\n");
    if (fclose(to) != 0)
        fail("not enough memory");
    return has_level;
}

static bool show_panels(const struct two_cars *cars, struct look look)
{
    char *panel[CARS];
    bool have_levels = true;

    for (int car = 0; car < CARS; car++)
        have_levels = draw_panel(cars, car, look, &panel[car]) && have_levels;
    show_beside(panel[0], panel[1]);
    for (int car = 0; car < CARS; car++)
        free(panel[car]);
    return have_levels;
}

enum status run_two_cars(struct two_cars *cars, struct look look, bool force)
{
    if (!run_entries(cars))
        return REFUSED;
    printf("%llu of %zu entries read\n", (unsigned long long)cars->read, cars->script.length / ENTRY_BYTES);
    for (int car = 0; car < CARS; car++) {
        const struct car *one = &cars->car[car];

        printf("car %d: ", car);
        show_stop(one->reason, one->stop, &one->state);
        if (one->save != NULL)
            save_state(one->save, &one->state, force, car == 0 ? NULL : cars->car[0].save, "car 0");
    }
    return show_panels(cars, look) ? DONE : REFUSED;
}

/* ---- The command ---- */

enum status work_run_two(const struct command *command, int count, char **words)
{
    const char *others[2], *digits = NULL, *columns = NULL;
    bool raw_script = false, force = false;
    struct course course[CARS] = {{NULL, NULL, NULL}, {NULL, NULL, NULL}};
    struct book book;
    struct two_cars cars = {.book = &book};
    const struct option known[] = {
        {"--stop0", &course[0].stop, NULL},       {"--stop1", &course[1].stop, NULL},
        {"--state0", &course[0].state, NULL},     {"--state1", &course[1].state, NULL},
        {"--options0", &course[0].options, NULL}, {"--options1", &course[1].options, NULL},
        {"--save0", &cars.car[0].save, NULL},     {"--save1", &cars.car[1].save, NULL},
        {"--digits", &digits, NULL},              {"--columns", &columns, NULL},
        {"--force", NULL, &force},                {"--raw-script", NULL, &raw_script},
        {NULL, NULL, NULL}};
    struct look look;
    enum status status = REFUSED;

    take_words(command, count, words, known, others, 2);
    look = look_from(command, (struct look){false, 0, COLUMNS_BESIDE}, digits, columns);
    for (int car = 0; car < CARS; car++)
        cars.car[car].stop = stop_from(command, &course[car]);
    may_write_both(command, cars.car[0].save, cars.car[1].save, force,
                   "the states of two cars go into two files, not both into");
    for (int car = 0; car < CARS; car++)
        for (int at = 0; at < 2; at++)
            keep_input(cars.car[car].save, others[at]);
    cars.script = read_script(others[1], raw_script, two_cars_from_text);
    if (start_from(command, &course[0], names[0].fresh, &cars.car[0].state)
        && start_from(command, &course[1], names[1].fresh, &cars.car[1].state) && read_book(others[0], &book)) {
        may_draw(&book, look);
        status = run_two_cars(&cars, look, force);
        give_back(book.file.at);
    }
    give_back(cars.script.at);
    return status;
}
