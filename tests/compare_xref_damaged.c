/* Damaged tables: each one answers 29, by both sides, to asking and to replacing, and neither moves anything. */
#include "compare_xref.h"

#include <string.h>

enum { PLACES_IN_A_PROGRAM = 160, LOOKING_RIGHT = 13000, TRIED_IN_A_PROGRAM = 52, SAME_WRITERS = 110, EMPTY = 0xEE };

static unsigned long refused, taken;

static uint8_t room[PROGRAM_BYTES];

/* The tables of the program as they were built. */
static uint16_t right[XREF_NUMBERS];

static void new_program(enum kind kind)
{
    draw_program(kind);
    build_reference();
    memcpy(right, reference.tables, sizeof right);
}

/* Tables that do not match, at which an address has a part. */
static void expect_refused(unsigned address)
{
    struct lent output = {room, any(2) ? sizeof room : 0};
    uint16_t word = any(2) ? any_word_under(few[any(FEW)]) : (uint16_t)two(reference.program + 2 * address);

    expect("asking damaged tables", pair_xref_list(LENT(reference.program), REFERENCE, any_askable(), output), 29, 0);
    expect("replacing with damaged tables",
           pair_xref_replace(LENT(reference.program), REFERENCE, any(2) ? address : any(WORDS), word), 29, 0);
    refused++;
}

static void expect_taken(void)
{
    struct lent output = {room, sizeof room};
    unsigned address = any(WORDS);

    expect("asking good tables", pair_xref_list(LENT(reference.program), REFERENCE, any_askable(), output), 0, 0);
    expect("replacing with good tables",
           pair_xref_replace(LENT(reference.program), REFERENCE, address, (uint16_t)any(0x10000)), 0, 0);
    taken++;
}

/* ---- Every number ---- */

static void try_number(unsigned place, unsigned number)
{
    if ((uint16_t)number == right[place])
        return;
    reference.tables[place] = (uint16_t)number;
    expect_refused(place < XREF_NEXT ? right[place] % WORDS : place - XREF_NEXT);
    reference.tables[place] = right[place];
}

static void try_place(unsigned place)
{
    try_number(place, right[place] + 1u);
    try_number(place, right[place] - 1u);
    try_number(place, 0);
    try_number(place, XREF_NONE);
    try_number(place, UINT16_MAX);
    try_number(place, any(WORDS));
    try_number(place, right[place] ^ 1u << any(16));
    try_number(place, right[any(XREF_NUMBERS)]);
}

/* Those at the ends in a program of each kind, so that none of them is left to the stride. */
static void every_number(unsigned stride)
{
    static const uint16_t ends[] = {0x000, POINTED, 0x020, 0x36D, XREF_NEXT - 1, XREF_NEXT, XREF_NUMBERS - 1};

    for (int kind = 0; kind < KINDS; kind++) {
        new_program((enum kind)kind);
        for (size_t at = 0; at < sizeof ends / sizeof ends[0]; at++)
            try_place(ends[at]);
    }
    for (unsigned place = any(stride), done = 0; place < XREF_NUMBERS; place += stride, done++) {
        if (done % PLACES_IN_A_PROGRAM == 0)
            new_program((enum kind)any(KINDS));
        try_place(place);
    }
    progress("cross-references: one number in %u changed, in up to eight ways: %lu tables; failed so far %lu", stride,
             refused, failed);
}

/* ---- Tables that look right ---- */

enum damage {
    SWAPPED, LEFT_OUT, PUT_ELSEWHERE, CELLS_SWAPPED, CELL_TWICE, LED_BACK, CUT_OFF, CELLS_OF_ANOTHER, SHIFTED, ALL_NONE,
    ALL_ZERO, OTHER_WORD, OTHER_PROGRAM, DAMAGES
};

static const char *const damage_name[DAMAGES] = {
    "two numbers swapped", "an address left out", "an address under another cell", "two cells swapped",
    "one cell's under another too", "a number that leads back", "a cell cut off", "the cells of another program",
    "shifted by one", "all 4096", "all 0", "another word in the program", "another program's"};

/* What would be built where each address is kept so. */
static void fill(uint16_t tables[XREF_NUMBERS], const uint16_t under[WORDS])
{
    uint16_t *link[MEMORY_BYTES];

    for (unsigned at = 0; at < XREF_NUMBERS; at++)
        tables[at] = XREF_NONE;
    for (unsigned cell = 0; cell < MEMORY_BYTES; cell++)
        link[cell] = &tables[cell];
    for (unsigned address = 0; address < WORDS; address++)
        if (under[address] != UNKEPT) {
            *link[under[address]] = (uint16_t)address;
            link[under[address]] = &tables[XREF_NEXT + address];
        }
}

/* As if one address were kept under another cell or under none. */
static void fill_with(unsigned address, unsigned cell)
{
    static uint16_t under[WORDS];

    memcpy(under, reference.under, sizeof under);
    under[address] = (uint16_t)cell;
    fill(reference.tables, under);
}

static unsigned any_cell(void)
{
    return any(4) ? few[any(FEW)] : any(2) ? any_askable() : any(MEMORY_BYTES);
}

static void swap(uint16_t *left, uint16_t *other)
{
    uint16_t keeps = *left;

    *left = *other;
    *other = keeps;
}

static void damage_tables(enum damage damage, unsigned address)
{
    uint16_t *tables = reference.tables, *next = tables + XREF_NEXT;
    unsigned cell = any_cell();

    switch (damage) {
    case SWAPPED:
        swap(&tables[any(XREF_NUMBERS)], &tables[any(XREF_NUMBERS)]);
        break;
    case LEFT_OUT:
        fill_with(address, UNKEPT);
        break;
    case PUT_ELSEWHERE:
        fill_with(address, cell);
        break;
    case CELLS_SWAPPED:
        swap(&tables[cell], &tables[any_cell()]);
        break;
    case CELL_TWICE:
        tables[any_cell()] = tables[cell];
        break;
    case LED_BACK:
        next[address] = (uint16_t)(any(2) ? address : any(address + 1));
        break;
    case CUT_OFF:
        *(any(2) ? &tables[cell] : &next[address]) = XREF_NONE;
        break;
    case CELLS_OF_ANOTHER:
        fill_with(address, cell);
        memcpy(next, right + XREF_NEXT, sizeof *next * WORDS);
        break;
    case SHIFTED:
        memmove(tables + 1, tables, sizeof *tables * (XREF_NUMBERS - 1));
        break;
    case ALL_NONE:
        for (unsigned at = 0; at < XREF_NUMBERS; at++)
            tables[at] = XREF_NONE;
        break;
    case ALL_ZERO:
        memset(tables, 0, sizeof *tables * XREF_NUMBERS);
        break;
    case OTHER_WORD:
        set_two(reference.program + 2 * address, any_word_under(any(4) ? few[any(FEW)] : UNKEPT));
        break;
    default:
        for (unsigned other = 0; other < WORDS; other++)
            set_two(reference.program + 2 * other, any_word_under(any(16) ? few[any(FEW)] : UNKEPT));
        break;
    }
}

static bool still_match(void)
{
    if (memcmp(reference.tables, right, sizeof right) != 0)
        return false;
    for (unsigned address = 0; address < WORDS; address++)
        if (kept_under((uint16_t)two(reference.program + 2 * address)) != reference.under[address])
            return false;
    return true;
}

/* Most look like tables that some program has; now and then a damage changes nothing, and the tables are taken. */
static void that_look_right(unsigned stride)
{
    static uint8_t program[PROGRAM_BYTES];
    unsigned long by_damage[DAMAGES] = {0}, before = refused, done = 0;

    for (unsigned number = 0; number < LOOKING_RIGHT; number += stride) {
        enum damage damage = (enum damage)(done % DAMAGES);
        unsigned address = any(WORDS);

        if (done++ % TRIED_IN_A_PROGRAM == 0) {
            new_program((enum kind)any(KINDS));
            memcpy(program, reference.program, sizeof program);
        }
        damage_tables(damage, address);
        if (still_match()) {
            expect_taken();
        } else {
            expect_refused(address);
            by_damage[damage]++;
        }
        memcpy(reference.tables, right, sizeof right);
        memcpy(reference.program, program, sizeof program);
    }
    for (int damage = 0; damage < DAMAGES; damage++)
        check(by_damage[damage] > 0, "no tables were damaged by: %s", damage_name[damage]);
    progress("cross-references: %lu tables damaged so that they look right; failed so far %lu", refused - before,
             failed);
}

/* Other words that are kept as those of the program are. */
static void same_writers(unsigned stride)
{
    for (unsigned number = 0; number < SAME_WRITERS; number += stride) {
        new_program((enum kind)(number / stride % KINDS));
        for (unsigned address = 0; address < WORDS; address++)
            set_two(reference.program + 2 * address, any_word_under(reference.under[address]));
        for (int times = 0; times < 4; times++)
            expect_taken();
        expect("another program with the same writers", pair_xref_build(LENT(reference.program), REFERENCE), 0, 0);
        check(memcmp(after.tables, right, sizeof right) == 0, "another program with the same writers has other tables");
    }
}

void compare_damaged_tables(unsigned stride)
{
    memset(room, EMPTY, sizeof room);
    every_number(stride);
    that_look_right(stride);
    same_writers(stride);
    check(taken > 0, "no tables of another program with the same writers were taken");
    progress("cross-references: %lu damaged tables, each asked and replaced in; %lu that match all the same; failed so "
             "far %lu", refused, taken, failed);
}
