/* The refusals of the three calls on cross-references: every set of reasons at once, with the number and value that the
   paper's order tells; tables, rooms, cells and addresses at every bound. */
#include "compare_xref.h"

#include <string.h>

enum { REPEATS = 60, EMPTY = 0xEE };

/* Bytes to lend where a length is wrong, longer than any right one. */
static uint8_t long_area[2 * PROGRAM_BYTES];
static uint8_t room[PROGRAM_BYTES];

#define ANY_OF(list) (list[any(sizeof(list) / sizeof(list)[0])])

static const uint16_t program_lengths[] = {0, 1, 2, 4096, 5120, 8190, 8191, 8193, 8194, 16384};
static const uint16_t short_lengths[] = {0, 1, 2, 1023, 1024, 1025, 2560, 4095, 4096, 4097, 5118, 5119};
static const uint32_t bad_addresses[] = {4096, 4097, 8191, 8192, 0x7FFF, 0xFFFF, 0x10000, 0x10001, 0x10FFF, 0x7FFFFFFF,
                                         0x80000000, 0xFFFFF000, 0xFFFFFFFF};
static const uint32_t bad_cells[] = {0x000, 0x00F, 0x010, 0x01F, 0x170, 0x2FF, 0x349, 0x357, 0x36E, 0x36F, 0x370, 0x377,
                                     0x378, 0x3FF, 0x400, 0x420, 0x1020, 0xFFFF, 0x10020, 0x10300, 0x80000020,
                                     0xFFFFFFFF};

/* ---- What is lent ---- */

enum reason { PROGRAM_LENGTH = 1, CELL_OR_ADDRESS = 2, TABLES_SHORT = 4, NUMBER = 8, ROOM = 16, SETS = 32 };

static struct {
    struct lent program;
    struct lent_tables tables;
    unsigned damaged; /* the place of a number that is wrong */
    uint16_t was;
} offer;

static void offer_with(unsigned set)
{
    offer.program = set & PROGRAM_LENGTH ? (struct lent){long_area, ANY_OF(program_lengths)} : LENT(reference.program);
    offer.tables = REFERENCE;
    if (set & TABLES_SHORT)
        offer.tables.length = ANY_OF(short_lengths);
    offer.damaged = any(XREF_NUMBERS);
    offer.was = reference.tables[offer.damaged];
    if (set & NUMBER)
        reference.tables[offer.damaged] ^= (uint16_t)(1u << any(16));
}

static void take_back(void)
{
    reference.tables[offer.damaged] = offer.was;
}

static void new_program(void)
{
    draw_program((enum kind)any(KINDS));
    set_two(reference.program + 2 * any(WORDS), 0x3C0F); /* every answer needs some room */
    build_reference();
}

/* ---- Every set of reasons ---- */

static void build_with(unsigned set)
{
    uint32_t answer;

    offer_with(set);
    answer = pair_xref_build(offer.program, offer.tables);
    if (set & PROGRAM_LENGTH)
        expect("building, several reasons", answer, 1, offer.program.length);
    else if (set & TABLES_SHORT)
        expect("building, several reasons", answer, 7, XREF_NUMBERS);
    else
        expect("building", answer, 0, 0);
    take_back();
}

static void list_with(unsigned set)
{
    static uint8_t wanted[PROGRAM_BYTES];
    uint32_t cell = set & CELL_OR_ADDRESS ? ANY_OF(bad_cells) : any_askable();
    size_t needed = found_for(cell, wanted);
    size_t more = any((uint32_t)(sizeof room - needed + 1)), less = any((uint32_t)needed);
    struct lent output = {room, set & ROOM ? less : needed + more};
    uint32_t answer;

    offer_with(set);
    answer = pair_xref_list(offer.program, offer.tables, cell, output);
    if (set & PROGRAM_LENGTH)
        expect("asking, several reasons", answer, 1, offer.program.length);
    else if (set & CELL_OR_ADDRESS)
        expect("asking, several reasons", answer, 8, cell);
    else if (set & (TABLES_SHORT | NUMBER))
        expect("asking, several reasons", answer, 29, 0);
    else if (set & ROOM)
        expect("asking, several reasons", answer, 7, needed);
    else
        expect("asking", answer, 0, 0);
    take_back();
}

static void replace_with(unsigned set)
{
    uint32_t address = set & CELL_OR_ADDRESS ? ANY_OF(bad_addresses) : any(4) ? any(WORDS) : WORDS - 1, answer;

    offer_with(set);
    answer = pair_xref_replace(offer.program, offer.tables, address, (uint16_t)any(0x10000));
    if (set & PROGRAM_LENGTH)
        expect("replacing, several reasons", answer, 1, offer.program.length);
    else if (set & CELL_OR_ADDRESS)
        expect("replacing, several reasons", answer, 13, 0);
    else if (set & (TABLES_SHORT | NUMBER))
        expect("replacing, several reasons", answer, 29, 0);
    else
        expect("replacing", answer, 0, 0);
    take_back();
}

static void orders(void)
{
    for (int repeat = 0; repeat < REPEATS; repeat++) {
        new_program();
        for (unsigned set = 0; set < SETS; set++) {
            build_with(set);
            list_with(set);
            replace_with(set);
        }
    }
}

/* ---- Bounds ---- */

static void every_cell_and_address(void)
{
    for (uint32_t cell = 0; cell < 0x500; cell++)
        expect("asked cell", pair_xref_list(LENT(reference.program), REFERENCE, cell, LENT(room)),
               is_askable(cell) ? 0 : 8, is_askable(cell) ? 0 : cell);
    for (int repeat = 0; repeat < 500; repeat++) {
        uint32_t any_cell = (uint32_t)any_64() << any(32), any_address = (uint32_t)any_64() >> any(32);

        expect("any cell", pair_xref_list(LENT(reference.program), REFERENCE, any_cell, LENT(room)),
               is_askable(any_cell) ? 0 : 8, is_askable(any_cell) ? 0 : any_cell);
        expect("any address", pair_xref_replace(LENT(reference.program), REFERENCE, any_address, 0x3C20),
               any_address < WORDS ? 0 : 13, 0);
    }
    for (size_t at = 0; at < sizeof bad_addresses / sizeof bad_addresses[0]; at++)
        expect("no address", pair_xref_replace(LENT(reference.program), REFERENCE, bad_addresses[at], 0x3C20), 13, 0);
    expect("the last address", pair_xref_replace(LENT(reference.program), REFERENCE, WORDS - 1, 0x3C20), 0, 0);
}

/* Of every length up to one that is too short by one, tables as they were built. */
static void every_length(void)
{
    for (size_t length = 0; length < XREF_NUMBERS; length += length % 1024 < 3 || length % 1024 > 1020 ? 1 : 51) {
        struct lent_tables tables = {reference.tables, length};

        expect("building short tables", pair_xref_build(LENT(reference.program), tables), 7, XREF_NUMBERS);
        expect("asking short tables", pair_xref_list(LENT(reference.program), tables, 0x020, LENT(room)), 29, 0);
        expect("replacing with short tables", pair_xref_replace(LENT(reference.program), tables, 0, 0x3C20), 29, 0);
    }
    for (size_t length = XREF_NUMBERS; length <= XREF_NUMBERS + BEYOND; length++) {
        reference.length = length;
        for (size_t at = XREF_NUMBERS; at < length; at++)
            reference.tables[at] = (uint16_t)any(0x10000);
        expect("building longer tables", pair_xref_build(LENT(reference.program), REFERENCE), 0, 0);
        expect("asking longer tables", pair_xref_list(LENT(reference.program), REFERENCE, 0x020, LENT(room)), 0, 0);
        expect("replacing with longer tables",
               pair_xref_replace(LENT(reference.program), REFERENCE, any(WORDS), (uint16_t)any(0x10000)), 0, 0);
        check(memcmp(after.tables + XREF_NUMBERS, reference.tables + XREF_NUMBERS,
                     sizeof *reference.tables * (length - XREF_NUMBERS)) == 0, "numbers beyond the tables change");
    }
}

void compare_xref_refusals(void)
{
    for (size_t at = 0; at < sizeof long_area; at++)
        long_area[at] = (uint8_t)any(256);
    memset(room, EMPTY, sizeof room);
    orders();
    every_cell_and_address();
    every_length();
    progress("cross-references: all sets of reasons to refuse, in %d programs; cells, addresses and lengths at their "
             "bounds; failed so far %lu", REPEATS, failed);
}
