/* Runs of two cars made at random: a program and a wiring, a machine, a stop address and events for each car, and the
   order in which their events come. In one run in four a car is in a quiet stretch of cycles. */
#include "compare_two.h"

#include "compare_stretches.h"
#include "result.h"

#include <string.h>

/* Of eight runs six are over one program, and two are stretches, each over its own. */
enum { GROUP = 8, OVER_ONE_PROGRAM = 6 };
enum { LENGTH_MOST = 3000, UNLISTED_MOST = 40, UNLISTED_SPREADS = 5, RESETS_MOST = 6, ROW_LEAST = 4, ROW_SPREADS = 9 };

_Static_assert((int)OWN_MOST == (int)SCRIPT_ROOM, "a stretch is a car's own events");

struct two_cars cars;

/* ---- The program ---- */

/* Often with more words at which a car stops. */
static void draw_program(enum mix mix)
{
    random_program(cars.program, mix);
    for (unsigned words = any(3) ? any(UNLISTED_MOST << any(UNLISTED_SPREADS)) : 0; words > 0; words--)
        set_two(cars.program + 2 * any(WORDS), 0xF800 + any(0x7FF));
    for (int at = 0; at < CARS; at++)
        cars.car[at].goes_on = false;
}

/* ---- How long a script is, and each car's part of it ---- */

const uint16_t chosen_lengths[CHOSEN_LENGTHS] = {
    0, 1, 2, 3, 62, 63, 64, 65, 66, 126, 127, 128, 129, 130, 254, 255, 256, 257, 258, 510, 511, 512, 513, 514,
    1022, 1023, 1024, 1025, 1026, 2046, 2047, 2048, 2049, 2050, 4094, 4095, 4096, 4097, 4098};

static size_t length_of(uint64_t number)
{
    if (number % 2 == 0)
        return chosen_lengths[number / 2 % CHOSEN_LENGTHS];
    return any(32) ? any(LENGTH_MOST) : any(OWN_MOST);
}

static size_t any_part(size_t entries)
{
    switch (any(8)) {
    case 0:
        return 0;
    case 1:
        return entries;
    case 2:
        return entries < 2 ? entries : any(3);
    case 3:
    case 4:
        return entries / 2;
    default:
        return any((uint32_t)entries + 1);
    }
}

/* ---- A car ---- */

static void draw_machine(struct drawn_car *car)
{
    if (car->goes_on && any(2)) {
        car->start = car->end;
        nudge(&car->start);
        return;
    }
    random_machine(&car->start);
    if (any(8) == 0)
        car->start.record[R_MODE] = (uint8_t)(any(2) ? IN_HALT : IN_STOP);
}

/* Cycles only, cycles with something else now and then, or whatever the mix has; some with resets put among them. */
static void draw_events(struct drawn_car *car, enum mix mix)
{
    if (any(3)) {
        random_script(car->own, car->events, mix);
    } else {
        memset(car->own, CYCLE, car->events);
        if (any(2))
            for (size_t at = any(200); at < car->events; at += 1 + any(200))
                random_script(car->own + at, 1, MIX_ANY);
    }
    if (any(4) == 0 && car->events > 0)
        for (unsigned resets = 1 + any(RESETS_MOST); resets > 0; resets--)
            car->own[any((uint32_t)car->events)] = RESET_PIN;
}

/* None, any, or one that the car comes to, where it has cycles. */
static uint32_t any_stop(const struct drawn_car *car)
{
    struct result part;

    switch (any(6)) {
    case 0:
        return any(WORDS);
    case 1:
        return any(8);
    case 2:
        part = by_run(second_run, cars.program, &car->start, car->own, any((uint32_t)car->events + 1), NO_STOP);
        return two(part.machine.record + R_PC);
    case 3:
        return (uint32_t)any_64() | NO_STOP;
    default:
        return NO_STOP;
    }
}

static void draw_car(struct drawn_car *car, enum mix mix)
{
    draw_machine(car);
    draw_events(car, mix);
    car->stop = any_stop(car);
}

/* ---- A car in a quiet stretch ---- */

static void draw_stretch_of(struct drawn_car *car)
{
    enum way way;
    bool asleep, sounding;

    do {
        way = (enum way)any(WAYS);
        asleep = any(2);
        sounding = any(2);
    } while (!is_possible(way, asleep, sounding));
    draw_stretch(way, asleep, any(2), sounding);
    memcpy(cars.program, drawn.program, sizeof cars.program);
    car->start = drawn.start;
    car->stop = drawn.stop;
    car->events = drawn.length;
    memcpy(car->own, drawn.script, drawn.length);
}

/* Beside it the same stretch, or a part of it, from the same start, or anything. */
static void draw_beside(struct drawn_car *car, const struct drawn_car *quiet)
{
    if (any(2)) {
        car->events = any(2) ? quiet->events : any((uint32_t)quiet->events + 1);
        draw_car(car, MIX_ASLEEP);
        return;
    }
    *car = *quiet;
    if (any(2))
        car->events = any((uint32_t)car->events + 1);
    if (any(2))
        car->stop = any_stop(car);
}

/* ---- The script ---- */

enum order { SHUFFLED, IN_TURN, IN_ROWS, ONE_AFTER_THE_OTHER, ORDERS };

/* The cars' events keep their order; where one has no more, the other goes on. */
static void put_together(enum order order)
{
    size_t taken[CARS] = {0, 0}, row = 0;
    unsigned at = any(2);

    cars.entries = cars.car[0].events + cars.car[1].events;
    for (size_t entry = 0; entry < cars.entries; entry++) {
        size_t left = cars.car[0].events - taken[0];
        struct drawn_car *car;

        if (order == SHUFFLED) {
            at = any((uint32_t)(cars.entries - entry)) >= left;
        } else if (order == IN_TURN) {
            at = 1 - at;
        } else if (order == IN_ROWS && row-- == 0) {
            at = 1 - at;
            row = any(ROW_LEAST << any(ROW_SPREADS));
        }
        if (taken[at] == cars.car[at].events)
            at = 1 - at;
        car = &cars.car[at];
        cars.script[2 * entry] = (uint8_t)at;
        cars.script[2 * entry + 1] = car->own[taken[at]];
        car->entry_of[taken[at]++] = entry;
    }
}

void shorten(size_t entries)
{
    cars.entries = entries;
    for (int at = 0; at < CARS; at++) {
        struct drawn_car *car = &cars.car[at];

        while (car->events > 0 && car->entry_of[car->events - 1] >= entries)
            car->events--;
    }
}

void put_in_front(int at, size_t entries)
{
    struct drawn_car *car = &cars.car[at];

    if (car->events + entries > OWN_MOST)
        return;
    memmove(cars.script + 2 * entries, cars.script, 2 * cars.entries);
    memmove(car->own + entries, car->own, car->events);
    memmove(car->entry_of + entries, car->entry_of, car->events * sizeof car->entry_of[0]);
    cars.entries += entries;
    car->events += entries;
    for (size_t event = entries; event < car->events; event++)
        car->entry_of[event] += entries;
    for (size_t event = 0; event < cars.car[1 - at].events; event++)
        cars.car[1 - at].entry_of[event] += entries;
    random_script(car->own, entries, MIX_ASLEEP);
    for (size_t entry = 0; entry < entries; entry++) {
        cars.script[2 * entry] = (uint8_t)at;
        cars.script[2 * entry + 1] = car->own[entry];
        car->entry_of[entry] = entry;
    }
}

/* ---- All together ---- */

static void draw_panel(void)
{
    cars.elements = any(8) ? 1 + any(ELEMENTS_MOST) : any(2) ? 1 : ELEMENTS_MOST;
    random_wiring(cars.wiring, cars.elements);
    for (int at = 0; at < CARS; at++) {
        struct drawn_car *car = &cars.car[at];

        car->room = cars.elements + (any(2) ? any(BEYOND_MOST + 1) : 0);
        for (size_t byte = 0; byte < car->room; byte++)
            car->picture[byte] = (uint8_t)any(256);
    }
}

void draw_cars(uint64_t number)
{
    uint64_t group = number / GROUP;
    unsigned in_group = number % GROUP;

    if (in_group >= OVER_ONE_PROGRAM) {
        unsigned quiet = any(2);

        draw_stretch_of(&cars.car[quiet]);
        draw_beside(&cars.car[1 - quiet], &cars.car[quiet]);
    } else {
        enum mix mix = group % 16 == 15 ? MIX_ANY : (enum mix)(group % MIX_ANY);
        size_t entries = length_of(OVER_ONE_PROGRAM * group + in_group);

        if (in_group == 0)
            draw_program(mix);
        cars.car[0].events = any_part(entries);
        cars.car[1].events = entries - cars.car[0].events;
        for (int at = 0; at < CARS; at++)
            draw_car(&cars.car[at], mix);
        if (any(8) == 0)
            cars.car[1].start = cars.car[0].start;
    }
    put_together((enum order)any(ORDERS));
    draw_panel();
}
