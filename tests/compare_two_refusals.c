/* The refusals of a run of two cars: every set of reasons at once, with the number and value that the paper's order
   tells; every event byte, car byte and lone byte at every kind of place; both cars' memories and records byte by byte;
   wirings and rooms of every length. */
#include "compare.h"
#include "compare_two.h"

#include <string.h>

enum { ENTRIES_MOST = 5000, SHORT = 12, ELEMENT_BYTES = 3, KIND_WIRING = 2 };

/* Bytes to lend where a length is wrong, longer than any right one. */
static uint8_t long_area[2 * PROGRAM_BYTES];

#define ANY_OF(list) (list[any(sizeof(list) / sizeof(list)[0])])

/* ---- What is lent ---- */

static uint8_t program[PROGRAM_BYTES], wiring[WIRING_MOST + ELEMENT_BYTES], script[2 * ENTRIES_MOST + 1];
static uint8_t picture[CARS][ELEMENTS_MOST + BEYOND_MOST];
static struct machine machine[CARS];
static unsigned elements;

static struct {
    struct lent program, wiring, script;
    struct lent_car car[CARS];
} offer;

/* A script of known events of both cars. */
static void good_script(size_t entries)
{
    static uint8_t events[ENTRIES_MOST];

    random_script(events, entries, MIX_ANY);
    for (size_t entry = 0; entry < entries; entry++) {
        script[2 * entry] = (uint8_t)any(2);
        script[2 * entry + 1] = events[entry];
    }
    offer.script = (struct lent){script, 2 * entries};
}

/* Nothing stands against it: an unlisted word, in front of which a car may stand, does not. */
static void good_offer(void)
{
    elements = any(4) ? 1 + any(8) : 1 + any(ELEMENTS_MOST);
    random_wiring(wiring, elements);
    offer.program = LENT(program);
    offer.wiring = (struct lent){wiring, ELEMENT_BYTES * elements};
    good_script(1 + any(SHORT));
    for (int at = 0; at < CARS; at++) {
        random_machine(&machine[at]);
        for (unsigned byte = 0; byte < sizeof picture[at]; byte++)
            picture[at][byte] = (uint8_t)any(256);
        offer.car[at] = (struct lent_car){LENT(machine[at].memory), LENT(machine[at].record),
                                         {picture[at], elements + any(BEYOND_MOST + 1)}, any(2 * WORDS)};
    }
}

static uint32_t made(void)
{
    return pair_run_two(offer.program, offer.wiring, offer.car, offer.script);
}

static uint8_t unknown_event(void)
{
    uint8_t event;

    do
        event = (uint8_t)any(any(4) ? 256 : PINS_A);
    while (is_known(event));
    return event;
}

static uint8_t no_car(void)
{
    return (uint8_t)(any(2) ? CARS + any(256 - CARS) : CARS);
}

/* ---- Reasons, in the order of 02, P5 ---- */

/* Where there are two, car 0's and then car 1's. */
enum reason {
    PROGRAM_LENGTH, MEMORY_LENGTH, CELL = MEMORY_LENGTH + CARS, RECORD_LENGTH = CELL + CARS,
    FIELD = RECORD_LENGTH + CARS, EVENT = FIELD + CARS, WIRING_LENGTH, WIRING_VALUE, CAR, CUT, ROOM,
    REASONS = ROOM + CARS
};

static struct {
    uint32_t number;
    uint64_t value;
} told[REASONS];

static void put_cell(int at)
{
    unsigned lowest;

    do
        lowest = any(MEMORY_BYTES);
    while (bits_held(lowest) == 15);
    machine[at].memory[lowest] = (uint8_t)~bits_held(lowest);
    machine[at].memory[lowest + any(MEMORY_BYTES - lowest)] |= 0x80;
    told[CELL + at].number = 3;
    told[CELL + at].value = lowest;
}

static void put_field(int at)
{
    static const uint8_t bad[][2] = {{R_PC, 0x10},      {R_AC, 16},      {R_CY, 2},           {R_MODE, 3},
                                     {R_STACK + 4, 32}, {R_PINS, 16},    {R_OPTIONS, 8},      {R_PENDING, 2},
                                     {R_SOUND_COUNT, 4}, {R_SOUND_OUTPUT, 2}, {R_FROZEN, 16}, {R_FROZEN_MARK, 2}};
    const uint8_t *drawn = ANY_OF(bad);

    machine[at].record[drawn[0]] = drawn[1];
    told[FIELD + at].number = 4;
}

/* At the first, the last or any entry, and sometimes at others behind it; answers the first entry. */
static size_t put_in_entries(size_t byte, size_t entries, uint8_t (*bad)(void))
{
    size_t first = any(3) ? any((uint32_t)entries) : any(2) ? 0 : entries - 1;

    script[2 * first + byte] = bad();
    for (unsigned others = any(3); others > 0; others--)
        script[2 * (first + any((uint32_t)(entries - first))) + byte] = bad();
    return first;
}

/* An entry's car byte and its event byte are bad each for itself; the lone byte of a cut entry is one more car byte. */
static void put_in_script(unsigned set)
{
    size_t entries = offer.script.length / 2;

    if (set & 1u << EVENT)
        told[EVENT].value = 2 * put_in_entries(1, entries, unknown_event) + 1;
    if (set & 1u << CUT) {
        script[2 * entries] = (uint8_t)any(CARS);
        told[CUT].value = 2 * entries;
        offer.script.length++;
    }
    if (set & 1u << CAR)
        told[CAR].value = 2 * put_in_entries(0, entries + (set & 1u << CUT ? 1 : 0), no_car);
    told[EVENT].number = 5;
    told[CAR].number = 27;
    told[CUT].number = 28;
}

static void put_in_wiring(unsigned set)
{
    if (set & 1u << WIRING_VALUE) {
        uint8_t *element = wiring + ELEMENT_BYTES * any(elements);

        if (any(2))
            element[2] = (uint8_t)(4 + any(252));
        else
            set_two(element, any(2) ? 0x349 + any(0x100) : any(0x300));
    }
    if (set & 1u << WIRING_LENGTH)
        offer.wiring.length = any(8) ? ELEMENT_BYTES * elements - 1 - any(2) : any(2) ? 0 : WIRING_MOST + ELEMENT_BYTES;
    told[WIRING_LENGTH].number = 10;
    told[WIRING_VALUE].number = 11;
    told[WIRING_VALUE].value = KIND_WIRING;
}

static void put_lengths(unsigned set)
{
    static const uint16_t program_lengths[] = {0, 1, 2, 4096, 8190, 8191, 8193, 8194, 16384};
    static const uint16_t memory_lengths[] = {0, 1, 512, 1023, 1025, 2048};
    static const uint16_t record_lengths[] = {0, 1, 36, 37, 38, 42, 43, 44, 46, 90};

    if (set & 1u << PROGRAM_LENGTH)
        offer.program = (struct lent){long_area, ANY_OF(program_lengths)};
    told[PROGRAM_LENGTH].number = 1;
    told[PROGRAM_LENGTH].value = offer.program.length;
    for (int at = 0; at < CARS; at++) {
        struct lent_car *car = &offer.car[at];

        if (set & 1u << (MEMORY_LENGTH + at))
            car->memory = (struct lent){long_area, ANY_OF(memory_lengths)};
        told[MEMORY_LENGTH + at].number = 2;
        told[MEMORY_LENGTH + at].value = car->memory.length;
        if (set & 1u << (RECORD_LENGTH + at))
            car->record = (struct lent){long_area, ANY_OF(record_lengths)};
        told[RECORD_LENGTH + at].number = 4;
        if (set & 1u << (ROOM + at))
            car->picture.length = any(3) ? any(elements) : elements - 1;
        told[ROOM + at].number = 7;
        told[ROOM + at].value = elements;
    }
}

/* A call with all reasons of a set: the first in the order is told. */
static void refused_by(unsigned set)
{
    uint32_t answer;
    unsigned first = 0;

    good_offer();
    memset(told, 0, sizeof told);
    for (int at = 0; at < CARS; at++) {
        if (set & 1u << (CELL + at))
            put_cell(at);
        if (set & 1u << (FIELD + at))
            put_field(at);
    }
    put_in_script(set);
    put_in_wiring(set);
    put_lengths(set);
    answer = made();
    while (first < REASONS && !(set & 1u << first))
        first++;
    if (first < REASONS)
        expect("two cars, several reasons", answer, told[first].number, told[first].value);
    else
        expect("two cars, no reason", answer, 0, 0);
}

static void orders(void)
{
    enum { SINGLE_REPEATS = 200, PAIR_REPEATS = 40, SETS = 1 << REASONS };

    for (unsigned set = 0; set < SETS; set++)
        refused_by(set);
    for (unsigned one = 0; one < REASONS; one++)
        for (unsigned other = 0; other < REASONS; other++)
            for (int repeat = 0; repeat < (one == other ? SINGLE_REPEATS : PAIR_REPEATS); repeat++)
                refused_by(1u << one | 1u << other);
    progress("two cars: all %d sets of %d reasons to refuse, each pair %d times more; failed so far %lu", SETS, REASONS,
             2 * PAIR_REPEATS, failed);
}

/* ---- Bytes of the script ---- */

/* One byte of a script that is good, but that its last entry may be cut. */
static void expect_byte(size_t place, uint8_t byte)
{
    bool is_event = place % 2 == 1, is_cut = offer.script.length % 2 == 1;

    script[place] = byte;
    if (is_event && !is_known(byte))
        expect("two cars, an event byte", made(), 5, place);
    else if (!is_event && byte >= CARS)
        expect("two cars, a car byte", made(), 27, place);
    else if (is_cut)
        expect("two cars, a cut entry", made(), 28, offer.script.length - 1);
    else
        expect("two cars, a good byte", made(), 0, 0);
}

static void every_byte(void)
{
    for (unsigned byte = 0; byte < 256; byte++)
        for (size_t length = 1; length <= 2 * SHORT; length += length < 6 ? 1 : 9)
            for (size_t place = 0; place < length; place++) {
                good_offer();
                good_script((length + 1) / 2);
                offer.script.length = length;
                expect_byte(place, (uint8_t)byte);
            }
    progress("two cars: every event, car and lone byte at every place of short scripts; failed so far %lu", failed);
}

/* In scripts of every chosen length: a bad byte at its ends, its middle and anywhere, alone and with others behind. */
static void every_length(void)
{
    for (int length = 0; length < CHOSEN_LENGTHS; length++) {
        size_t entries = chosen_lengths[length];
        const size_t at[] = {0, entries / 2, entries - 1, any((uint32_t)entries + !entries)};

        good_offer();
        good_script(entries);
        expect("two cars, a good script", made(), 0, 0);
        offer.script.length++;
        for (uint8_t byte = 0; byte < 4; byte++)
            expect_byte(2 * entries, byte);
        for (unsigned place = 0; entries > 0 && place < sizeof at / sizeof at[0]; place++) {
            good_script(entries);
            expect_byte(2 * at[place], no_car());
            if (any(2))
                script[2 * (at[place] + any((uint32_t)(entries - at[place])))] = no_car();
            expect("two cars, cars", made(), 27, 2 * at[place]);
            script[2 * at[place] + 1] = unknown_event();
            expect("two cars, a car and an event", made(), 5, 2 * at[place] + 1);
            good_script(entries);
            expect_byte(2 * at[place] + 1, unknown_event());
            script[2 * any((uint32_t)entries)] = no_car();
            script[2 * (at[place] + any((uint32_t)(entries - at[place]))) + 1] = unknown_event();
            expect("two cars, events and a car", made(), 5, 2 * at[place] + 1);
        }
    }
}

/* ---- Machines, wirings and rooms ---- */

static void every_machine(void)
{
    for (int at = 0; at < CARS; at++) {
        for (unsigned cell = 0; cell < MEMORY_BYTES; cell++) {
            uint8_t bad = (uint8_t)~bits_held(cell);

            good_offer();
            machine[at].memory[cell] |= (uint8_t)(1u << (4 + any(4)));
            expect("two cars, a byte of a memory", made(), 3, cell);
            machine[at].memory[cell] = bad;
            machine[1 - at].record[R_AC] = 16;
            expect("two cars, a byte of a memory", made(), 3, cell);
        }
        for (unsigned byte = 0; byte < RECORD_BYTES; byte++)
            for (unsigned value = 0; value < 256; value++) {
                uint32_t alone;

                if (value % 16 == 0)
                    good_offer();
                machine[at].record[byte] = (uint8_t)value;
                alone = pair_picture(offer.car[at].memory, offer.car[at].record, offer.wiring, offer.car[at].picture);
                check(alone == 0 || alone == 4, "record %u as %u: picture answers %u", byte, value, alone);
                expect("two cars, a byte of a record", made(), alone, 0);
            }
    }
    progress("two cars: every memory byte and every value of a record byte, of either car; failed so far %lu", failed);
}

static void every_wiring(void)
{
    for (unsigned length = 0; length <= sizeof wiring; length++) {
        unsigned needed = length / ELEMENT_BYTES;
        bool good = length % ELEMENT_BYTES == 0 && needed >= 1 && needed <= ELEMENTS_MOST;

        good_offer();
        random_wiring(wiring, ELEMENTS_MOST + 1);
        offer.wiring = (struct lent){wiring, length};
        for (int at = 0; at < CARS; at++)
            offer.car[at].picture.length = needed;
        if (!good) {
            expect("two cars, a wiring's length", made(), 10, 0);
            continue;
        }
        expect("two cars, a wiring", made(), 0, 0);
        for (int at = 0; at < CARS; at++) {
            offer.car[at].picture.length = any(2) ? needed - 1 : any(needed);
            expect("two cars, a room", made(), 7, needed);
            offer.car[at].picture.length = needed;
        }
        wiring[ELEMENT_BYTES * any(needed) + 2] = (uint8_t)(4 + any(252));
        expect("two cars, a wiring's bit", made(), 11, KIND_WIRING);
        random_wiring(wiring, needed);
        set_two(wiring + ELEMENT_BYTES * any(needed), any(2) ? 0x349 + any(0x200) : any(0x300));
        expect("two cars, a wiring's cell", made(), 11, KIND_WIRING);
    }
}

void compare_two_refusals(void)
{
    for (size_t at = 0; at < sizeof long_area; at++)
        long_area[at] = (uint8_t)any(256);
    random_program(program, MIX_ANY);
    orders();
    every_byte();
    every_length();
    every_machine();
    every_wiring();
    progress("two cars: scripts, wirings and rooms of every length; failed so far %lu", failed);
}
