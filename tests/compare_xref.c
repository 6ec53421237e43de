/* Cross-references: of programs that hold all 65,536 words between them and of programs at random, built by both sides,
   judged number by number, and asked for cells, whose answers are also held against the lists of the program. */
#include "compare.h"
#include "compare_xref.h"

#include "../desk/galhoveia.h"
#include "../second/second.h"

#include <string.h>

enum {
    PROGRAMS_OF_ALL_WORDS = 0x10000 / WORDS, RANDOM_PROGRAMS = 3000, ASKED_EVERYWHERE_ONE_IN = 30, EMPTY = 0xEE
};

struct reference reference;
unsigned long asked;

static uint8_t empty[PROGRAM_BYTES];

/* ---- The judge ---- */

bool walk(const uint16_t tables[XREF_NUMBERS], uint16_t under[WORDS])
{
    const uint16_t *next = tables + XREF_NEXT;

    for (unsigned address = 0; address < WORDS; address++)
        under[address] = UNKEPT;
    for (unsigned cell = 0; cell < MEMORY_BYTES; cell++)
        for (unsigned least = 0, address = tables[cell]; address != XREF_NONE; address = next[address]) {
            if (address < least || address >= WORDS || under[address] != UNKEPT)
                return false;
            under[address] = (uint16_t)cell;
            least = address + 1;
        }
    for (unsigned address = 0; address < WORDS; address++)
        if (under[address] == UNKEPT && next[address] != XREF_NONE)
            return false;
    return true;
}

void build_reference(void)
{
    unsigned wrong = 0;

    reference.length = XREF_NUMBERS + any(2) * any(BEYOND + 1);
    for (size_t at = 0; at < reference.length; at++)
        reference.tables[at] = (uint16_t)any(any(2) ? 0x10000 : WORDS + 1);
    expect("building tables", pair_xref_build(LENT(reference.program), REFERENCE), 0, 0);
    check(memcmp(after.tables + XREF_NUMBERS, reference.tables + XREF_NUMBERS,
                 sizeof *reference.tables * (reference.length - XREF_NUMBERS)) == 0,
          "building tables changes the numbers beyond");
    memcpy(reference.tables, after.tables, sizeof *reference.tables * XREF_NUMBERS);
    check(walk(reference.tables, reference.under), "tables as built do not ascend, or not to an end");
    for (unsigned address = 0; address < WORDS; address++)
        wrong += reference.under[address] != kept_under((uint16_t)two(reference.program + 2 * address));
    check(wrong == 0, "tables as built keep %u addresses where they do not belong", wrong);
}

size_t found_for(unsigned cell, uint8_t addresses[PROGRAM_BYTES])
{
    size_t bytes = 0;

    for (unsigned address = 0; address < WORDS; address++)
        if (reference.under[address] == cell || reference.under[address] == POINTED) {
            set_two(addresses + bytes, address);
            bytes += 2;
        }
    return bytes;
}

/* ---- Asking ---- */

struct list {
    uint32_t answer;
    uint64_t count, value;
    uint8_t addresses[PROGRAM_BYTES];
};

static void hold(const char *whose, const struct list *list, const struct list *wanted, unsigned cell)
{
    check(list->answer == 0 && list->value == 0 && list->count == wanted->count
          && memcmp(list->addresses, wanted->addresses, sizeof list->addresses) == 0,
          "$%03X by %s: answer %u, %llu bytes, not %llu, or other addresses", cell, whose, list->answer,
          (unsigned long long)list->count, (unsigned long long)wanted->count);
}

void ask(unsigned cell)
{
    static struct list ours, second, listed, wanted;
    const uint8_t *program = reference.program;

    ours.count = second.count = listed.count = ours.value = second.value = listed.value = 99;
    memcpy(ours.addresses, empty, sizeof empty);
    memcpy(second.addresses, empty, sizeof empty);
    memcpy(listed.addresses, empty, sizeof empty);
    memcpy(wanted.addresses, empty, sizeof empty);
    wanted.count = found_for(cell, wanted.addresses);
    ours.answer = galhoveia_xref_list(program, PROGRAM_BYTES, reference.tables, reference.length, cell, ours.addresses,
                                      PROGRAM_BYTES, &ours.count, &ours.value);
    second.answer = second_xref_list(program, PROGRAM_BYTES, reference.tables, reference.length, cell,
                                     second.addresses, PROGRAM_BYTES, &second.count, &second.value);
    listed.answer = galhoveia_list(program, PROGRAM_BYTES, cell, listed.addresses, PROGRAM_BYTES, &listed.count,
                                   &listed.value);
    hold("galhoveia's tables", &ours, &wanted, cell);
    hold("second's tables", &second, &wanted, cell);
    hold("galhoveia's list", &listed, &wanted, cell);
    asked++;
}

void ask_everywhere(unsigned stride)
{
    for (unsigned cell = 0, askable = 0; cell < MEMORY_BYTES; cell++)
        if (is_askable(cell) && askable++ % stride == 0)
            ask(cell);
}

/* With just enough room or more, and then with too little. */
static void ask_with_room(unsigned cell)
{
    static uint8_t wanted[PROGRAM_BYTES];
    size_t needed = found_for(cell, wanted), room = needed + any(2) * any((uint32_t)(PROGRAM_BYTES + 1 - needed));

    expect("asking tables", pair_xref_list(LENT(reference.program), REFERENCE, cell, (struct lent){empty, room}), 0, 0);
    check(after.count == needed && memcmp(after.output, wanted, needed) == 0
          && memcmp(after.output + needed, empty, room - needed) == 0,
          "$%03X from tables: %llu bytes, not %zu, or other addresses, or the room beyond changes", cell,
          (unsigned long long)after.count, needed);
    if (needed == 0)
        return;
    room = any(2) ? needed - 1 : any((uint32_t)needed);
    expect("asking tables with too little room",
           pair_xref_list(LENT(reference.program), REFERENCE, cell, (struct lent){empty, room}), 7, needed);
}

/* ---- Programs ---- */

/* Between them the programs hold every word once, in a scattered order. */
static void all_words(unsigned stride, unsigned cell_stride)
{
    unsigned long programs = 0, before = asked;

    for (unsigned number = 0; number < PROGRAMS_OF_ALL_WORDS; number += stride) {
        for (unsigned address = 0; address < WORDS; address++)
            set_two(reference.program + 2 * address, (number * WORDS + address) * 40503u & 0xFFFF);
        build_reference();
        ask_everywhere(cell_stride);
        programs++;
    }
    progress("cross-references: %lu programs with %lu words, each once, built and asked for %lu cells; failed so far "
             "%lu", programs, programs * WORDS, asked - before, failed);
}

static void random_programs(unsigned stride, unsigned cell_stride)
{
    unsigned long programs = 0, before = asked, with_room = 0;

    for (unsigned number = 0; number < RANDOM_PROGRAMS; number += stride) {
        draw_program((enum kind)(programs % KINDS));
        build_reference();
        if (programs++ % ASKED_EVERYWHERE_ONE_IN == 0)
            ask_everywhere(cell_stride);
        for (int at = 0; at < FEW; at++, with_room++)
            ask_with_room(is_askable(few[at]) ? few[at] : any_askable());
    }
    progress("cross-references: %lu programs at random, built and asked for %lu cells, and for %lu with just enough "
             "room and too little; failed so far %lu", programs, asked - before, with_room, failed);
}

void compare_xref(const struct plan *plan)
{
    memset(empty, EMPTY, sizeof empty);
    sort_words(plan->trials);
    all_words(plan->xref_stride, plan->cell_stride);
    random_programs(plan->xref_stride, plan->cell_stride);
    compare_replacements(plan->xref_stride, plan->cell_stride);
    compare_damaged_tables(plan->xref_stride);
    compare_xref_refusals();
}
