/* Lists of writers, for every askable cell: over a program with every form, and over programs that hold all 65,536
   words between them, against the trials of every word (trials.c), which rest on no list of which instructions write. */
#include "compare.h"
#include "forms.h"
#include "support.h"

#include "../desk/galhoveia.h"

#include <stdlib.h>
#include <string.h>

enum { ASKABLE = 431, PROGRAMS = 0x10000 / WORDS, PAIRED_ONE_IN = 32 };

static uint8_t program[PROGRAM_BYTES];
static trial_row *trials;

/* One list, with room for all, against the trials of the program's words. Answers its length in bytes. */
static size_t list_of(unsigned cell)
{
    static uint8_t addresses[PROGRAM_BYTES], wanted[PROGRAM_BYTES];
    uint64_t count = 99, value = 99;
    size_t found = 0;
    uint32_t answer;

    memset(addresses, 0xEE, sizeof addresses);
    memset(wanted, 0xEE, sizeof wanted);
    for (unsigned address = 0; address < WORDS; address++)
        if (trial_of(trials, (uint16_t)two(program + 2 * address), cell))
            set_two(wanted + 2 * found++, address);
    answer = galhoveia_list(program, sizeof program, cell, addresses, sizeof addresses, &count, &value);
    check(answer == 0 && value == 0 && count == 2 * found && memcmp(addresses, wanted, sizeof wanted) == 0,
          "list of $%03X: answer %u, %llu bytes, not %zu, or other addresses", cell, answer, (unsigned long long)count,
          2 * found);
    reached[LIST][answer < REFUSALS ? answer : 0]++;
    return 2 * found;
}

static void forms_for_every_cell(unsigned stride)
{
    static uint8_t room[PROGRAM_BYTES];
    unsigned askable = 0, asked = 0;
    unsigned long listed = 0;

    memset(room, 0xEE, sizeof room);
    for (unsigned cell = 0; cell < MEMORY_BYTES; cell++) {
        size_t length;

        if (!is_askable(cell) || askable++ % stride != 0)
            continue;
        program_about(program, cell);
        length = list_of(cell);
        listed += length / 2;
        if (asked++ % PAIRED_ONE_IN != 0)
            continue;
        expect("list", pair_list(LENT(program), cell, LENT(room)), 0, 0);
        expect("list with just enough room", pair_list(LENT(program), cell, (struct lent){room, length}), 0, 0);
        expect("list with too little", pair_list(LENT(program), cell, (struct lent){room, any((uint32_t)length)}), 7,
               length);
    }
    check(askable == ASKABLE, "%u cells can be asked", askable);
    progress("lists: %u cells over a program with every form, %lu writers; failed so far %lu", asked, listed, failed);
}

static void all_words(unsigned stride)
{
    unsigned long lists = 0, writers = 0;

    for (unsigned number = 0; number < PROGRAMS; number++) {
        /* Between them the programs hold every word once, in a scattered order. */
        for (unsigned address = 0; address < WORDS; address++)
            set_two(program + 2 * address, (number * WORDS + address) * 40503u & 0xFFFF);
        for (unsigned cell = 0, askable = 0; cell < MEMORY_BYTES; cell++) {
            if (!is_askable(cell) || askable++ % stride != 0)
                continue;
            writers += list_of(cell) / 2;
            lists++;
        }
    }
    progress("lists: %lu over all 65536 words, %lu writers; failed so far %lu", lists, writers, failed);
}

/* ---- Refusals, and programs at random ---- */

static void list_refusals(void)
{
    static uint8_t room[PROGRAM_BYTES], long_area[2 * PROGRAM_BYTES];
    static const uint16_t lengths[] = {0, 1, 4096, 8191, 8193, 16384};

    memset(room, 0xEE, sizeof room);
    memset(program, 0xFF, sizeof program);
    set_two(program + 2 * 0x123, 0x3C0F);
    set_two(program + 2 * 0xFFF, 0x780F);
    for (uint32_t cell = 0; cell < 0x500; cell++)
        expect("asked cell", pair_list(LENT(program), cell, LENT(room)), is_askable(cell) ? 0 : 8,
               is_askable(cell) ? 0 : cell);
    for (int repeat = 0; repeat < 500; repeat++) {
        uint32_t cell = (uint32_t)any_64() << any(32);

        expect("any cell", pair_list(LENT(program), cell, LENT(room)), is_askable(cell) ? 0 : 8,
               is_askable(cell) ? 0 : cell);
    }
    for (unsigned set = 0; set < 8; set++)
        for (int repeat = 0; repeat < 20; repeat++) {
            struct lent lent = set & 1 ? (struct lent){long_area, lengths[any(6)]} : LENT(program);
            uint32_t cell = set & 2 ? any(0x20) : 0x020 + any(0x150);
            uint32_t answer = pair_list(lent, cell, (struct lent){room, set & 4 ? any(4) : 4 + any(4)});

            if (set & 1)
                expect("list, several reasons", answer, 1, lent.length);
            else if (set & 2)
                expect("list, several reasons", answer, 8, cell);
            else if (set & 4)
                expect("list, several reasons", answer, 7, 4);
            else
                expect("list", answer, 0, 0);
        }
    memset(program, 0xFF, sizeof program);
    expect("an empty list needs no room", pair_list(LENT(program), 0x020, (struct lent){room, 0}), 0, 0);
    check(after.count == 0, "an empty list has %llu bytes", (unsigned long long)after.count);
    for (unsigned address = 0; address < WORDS; address++)
        set_two(program + 2 * address, 0x3C0F);
    expect("all are writers", pair_list(LENT(program), 0x348, LENT(room)), 0, 0);
    check(after.count == PROGRAM_BYTES, "a list of all has %llu bytes", (unsigned long long)after.count);
    for (int repeat = 0; repeat < 30; repeat++) {
        random_program(program, (enum mix)any(MIXES));
        (void)list_of(0x020 + any(0x60));
    }
}

void compare_lists(const struct plan *plan)
{
    trials = read_trials(plan->trials);
    list_refusals();
    forms_for_every_cell(plan->cell_stride);
    all_words(plan->cell_stride);
    free(trials);
}
