/* Runs of two cars. Each is held against the second emulator's, and against what the paper makes of it: each car's
   machine, memory, picture and stop reason are those of galhoveia's one-car run and picture on its own entries alone,
   and the count of entries follows from where these two runs stop. */
#include "compare.h"
#include "compare_two.h"
#include "result.h"

#include "../desk/galhoveia.h"

#include <inttypes.h>
#include <stdio.h>
#include <string.h>

enum { FIFTHS_OF_ALL_EVENTS = 4, DRAWS_LEAST = 2000 };

/* ---- What happened ---- */

enum happening {
    RUNS, READ, TAKEN, /* what follows is of car 0, then of car 1 */
    AT_STOP = TAKEN + CARS, BEFORE_UNLISTED = AT_STOP + CARS, ALL_TAKEN = BEFORE_UNLISTED + CARS,
    PASSED_OVER = ALL_TAKEN + CARS, RESET_PASSED_OVER = PASSED_OVER + CARS, ENDED_IN_HALT = RESET_PASSED_OVER + CARS,
    ENDED_IN_STOP = ENDED_IN_HALT + CARS, LIT = ENDED_IN_STOP + CARS, DARK = LIT + CARS, STOPPED_FIRST = DARK + CARS,
    NO_ENTRY = STOPPED_FIRST + CARS,
    NONE_STOPPED = NO_ENTRY + CARS, ONE_STOPPED, BOTH_STOPPED, BEFORE_THE_END, BY_THE_LAST, BOTH_BY_WORDS, UNLIKE,
    NO_ENTRIES, HAPPENINGS
};

static const char *const happening_name[HAPPENINGS] = {
    "runs of two cars", "entries read", "  taken by car 0", "  taken by car 1", "car 0 at its stop address",
    "car 1 at its stop address", "car 0 before an unlisted word", "car 1 before an unlisted word",
    "car 0, all its entries taken", "car 1, all its entries taken", "entries passed over, car 0 stopped",
    "entries passed over, car 1 stopped", "  resets of car 0 among them", "  resets of car 1 among them",
    "car 0 asleep in HALT at the end", "car 1 asleep in HALT at the end", "car 0 asleep in STOP at the end",
    "car 1 asleep in STOP at the end", "pictures of car 0 with light", "pictures of car 1 with light",
    "pictures of car 0, dark", "pictures of car 1, dark", "both stopped, car 0 first", "both stopped, car 1 first",
    "car 0 without an entry", "car 1 without an entry", "runs with no car stopped", "runs with one car stopped",
    "runs with both stopped", "  before the script's end", "  by the script's last entry", "  both by unlisted words",
    "  one by a word, one by its address", "empty scripts"};

static uint64_t happened[HAPPENINGS];
static uint64_t length_seen[CHOSEN_LENGTHS]; /* scripts of this length */
static uint64_t stop_seen[CHOSEN_LENGTHS];   /* cars that stop with the last entry of this many */

static void count_car(int at, const struct result *alone, size_t stops_with, uint64_t read, bool lit)
{
    const struct drawn_car *car = &cars.car[at];
    uint8_t mode = alone->machine.record[R_MODE];

    happened[TAKEN + at] += alone->events;
    happened[AT_STOP + at] += alone->reason == AT_ADDRESS;
    happened[BEFORE_UNLISTED + at] += alone->reason == AT_UNLISTED;
    happened[ALL_TAKEN + at] += alone->reason == AT_END;
    happened[ENDED_IN_HALT + at] += mode == IN_HALT;
    happened[ENDED_IN_STOP + at] += mode == IN_STOP;
    happened[(lit ? LIT : DARK) + at]++;
    happened[NO_ENTRY + at] += car->events == 0;
    for (unsigned length = 0; length < CHOSEN_LENGTHS; length++)
        stop_seen[length] += stops_with < cars.entries && stops_with + 1 == chosen_lengths[length];
    for (size_t event = alone->events; event < car->events && car->entry_of[event] < read; event++)
        if (car->entry_of[event] > stops_with) {
            happened[PASSED_OVER + at]++;
            happened[RESET_PASSED_OVER + at] += car->own[event] == RESET_PIN;
        }
}

static void count_run(const struct result alone[CARS], const size_t stops_with[CARS], uint64_t read)
{
    bool stopped[CARS] = {alone[0].reason != AT_END, alone[1].reason != AT_END};

    happened[RUNS]++;
    happened[READ] += read;
    happened[NO_ENTRIES] += cars.entries == 0;
    for (unsigned length = 0; length < CHOSEN_LENGTHS; length++)
        length_seen[length] += cars.entries == chosen_lengths[length];
    happened[NONE_STOPPED] += !stopped[0] && !stopped[1];
    happened[ONE_STOPPED] += stopped[0] != stopped[1];
    if (!stopped[0] || !stopped[1])
        return;
    happened[BOTH_STOPPED]++;
    happened[STOPPED_FIRST + (stops_with[1] < stops_with[0])]++;
    happened[read < cars.entries ? BEFORE_THE_END : BY_THE_LAST]++;
    happened[BOTH_BY_WORDS] += alone[0].reason == AT_UNLISTED && alone[1].reason == AT_UNLISTED;
    happened[UNLIKE] += alone[0].reason != alone[1].reason;
}

/* ---- One run ---- */

/* The entry with which a car stops, or the script's length where it takes all of its own. */
static size_t last_entry(const struct drawn_car *car, const struct result *alone)
{
    switch (alone->reason) {
    case AT_ADDRESS:
        return car->entry_of[alone->events - 1];
    case AT_UNLISTED:
        return car->entry_of[alone->events];
    default:
        return cars.entries;
    }
}

/* Answers whether its picture has light in it. */
static bool compare_car(uint64_t number, int at, const struct result *alone)
{
    const struct drawn_car *car = &cars.car[at];
    uint8_t picture[sizeof car->picture];
    uint64_t count = 0, value;

    memcpy(picture, car->picture, sizeof picture);
    check(galhoveia_picture(alone->machine.memory, MEMORY_BYTES, alone->machine.record, RECORD_BYTES, cars.wiring,
                            3 * cars.elements, picture, car->room, &count, &value) == 0 && count == cars.elements,
          "two cars, draw %" PRIu64 ": no picture of car %d alone", number, at);
    check(alone->answer == (alone->reason == AT_UNLISTED ? 6u : 0u),
          "two cars, draw %" PRIu64 ": car %d alone answers %u", number, at, alone->answer);
    check(after.reason_of[at] == alone->reason, "two cars, draw %" PRIu64 ": reason %u of car %d, alone %u", number,
          after.reason_of[at], at, alone->reason);
    check(memcmp(after.memory_of[at], alone->machine.memory, MEMORY_BYTES) == 0,
          "two cars, draw %" PRIu64 ": memory of car %d is not that of car %d alone", number, at, at);
    check(memcmp(after.record_of[at], alone->machine.record, RECORD_BYTES) == 0,
          "two cars, draw %" PRIu64 ": record of car %d is not that of car %d alone", number, at, at);
    check(memcmp(after.picture_of[at], picture, car->room) == 0,
          "two cars, draw %" PRIu64 ": picture of car %d is not that of car %d alone", number, at, at);
    return memchr(picture, 1, cars.elements) != NULL;
}

/* Of what is drawn, as it stands. */
static void one_run(uint64_t number, size_t stops_with[CARS])
{
    struct result alone[CARS];
    struct lent_car lent[CARS];
    size_t later;
    uint64_t read;

    for (int at = 0; at < CARS; at++) {
        struct drawn_car *car = &cars.car[at];

        lent[at] = (struct lent_car){LENT(car->start.memory), LENT(car->start.record), {car->picture, car->room},
                                     car->stop};
        alone[at] = by_run(galhoveia_run, cars.program, &car->start, car->own, car->events, car->stop);
        stops_with[at] = last_entry(car, &alone[at]);
        car->end = alone[at].machine;
        car->goes_on = alone[at].reason != AT_UNLISTED;
    }
    later = stops_with[0] > stops_with[1] ? stops_with[0] : stops_with[1];
    read = later < cars.entries ? later + 1 : cars.entries;
    expect("two cars", pair_run_two(LENT(cars.program), (struct lent){cars.wiring, 3 * cars.elements}, lent,
                                    (struct lent){cars.script, 2 * cars.entries}), 0, 0);
    check(after.entries == read, "two cars, draw %" PRIu64 " of %zu entries: %" PRIu64 " read, not %" PRIu64, number,
          cars.entries, after.entries, read);
    for (int at = 0; at < CARS; at++)
        count_car(at, &alone[at], stops_with[at], read, compare_car(number, at, &alone[at]));
    count_run(alone, stops_with, read);
}

/* The chosen length that is longer and with whose last entry the fewest cars have stopped; 0 where none is longer. */
static size_t longer_than(size_t entries)
{
    unsigned fewest = 0;

    for (unsigned length = 0; length < CHOSEN_LENGTHS; length++)
        if (chosen_lengths[length] > entries && (fewest == 0 || stop_seen[length] < stop_seen[fewest]))
            fewest = length;
    return chosen_lengths[fewest];
}

/* Where a car stops, the run is made again with a script that ends there or close to it, or with entries of the other
   car in front, so that it stops with the last entry of a chosen number. */
static void one_draw(uint64_t number)
{
    size_t stops_with[CARS];
    int at = (int)any(CARS);

    draw_cars(number);
    one_run(number, stops_with);
    if (stops_with[at] == cars.entries)
        return;
    if (any(2)) {
        size_t end = stops_with[at] + any(3);

        shorten(end < cars.entries ? end : cars.entries);
    } else {
        size_t chosen = longer_than(stops_with[at]);

        put_in_front(1 - at, chosen == 0 ? 0 : chosen - stops_with[at] - 1);
    }
    one_run(number, stops_with);
}

void compare_two(const struct plan *plan)
{
    uint64_t least = plan->events / 5 * FIFTHS_OF_ALL_EVENTS, draws = 0;
    unsigned rarest = 0, rarest_stop = 1;

    while (happened[READ] < least || draws < DRAWS_LEAST)
        one_draw(draws++);
    for (int what = 0; what < HAPPENINGS; what++) {
        printf("  %-36s %12" PRIu64 "\n", happening_name[what], happened[what]);
        check(happened[what] > 0, "no %s in all these runs of two cars", happening_name[what]);
    }
    check(happened[READ] == happened[TAKEN] + happened[TAKEN + 1] + happened[BEFORE_UNLISTED]
                            + happened[BEFORE_UNLISTED + 1] + happened[PASSED_OVER] + happened[PASSED_OVER + 1],
          "an entry that was read was neither taken nor passed over");
    for (unsigned length = 0; length < CHOSEN_LENGTHS; length++) {
        if (length_seen[length] < length_seen[rarest])
            rarest = length;
        if (chosen_lengths[length] > 0 && stop_seen[length] < stop_seen[rarest_stop])
            rarest_stop = length;
    }
    check(length_seen[rarest] > 0, "no script of two cars has %u entries", chosen_lengths[rarest]);
    check(stop_seen[rarest_stop] > 0, "no car of two stops with entry %u", chosen_lengths[rarest_stop]);
    progress("  scripts of the rarest chosen length (%u): %" PRIu64, chosen_lengths[rarest], length_seen[rarest]);
    progress("  stops with an entry of the rarest chosen number (%u): %" PRIu64, chosen_lengths[rarest_stop],
             stop_seen[rarest_stop]);
    progress("two cars: %" PRIu64 " entries in %" PRIu64 " runs; failed so far %lu", happened[READ], happened[RUNS],
             failed);
}
