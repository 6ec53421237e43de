/* Long chains of replacements in a program and its tables. Each one is made by both sides and held against a fresh
   build of the new program, against a walk through all its tables, which shows every entry of every cell before and
   after it, and against the list of a cell that has a part in it. The lists of all 431 cells, which take a hundred
   times as long as all that, are taken at one in 300 of them and at the end of each chain. */
#include "compare_xref.h"

#include <stdio.h>
#include <string.h>

enum { REPLACEMENTS = 150000, SHORT_CHAIN = 400, LONG_CHAIN = 2 * WORDS, ASKED_EVERYWHERE_ONE_IN = 300, NOP = 0xFFFF };

/* ---- What is replaced ---- */

/* In some chains the addresses follow each other, upwards or downwards, and in some all words go to one place. */
static struct {
    unsigned left;
    enum { ANYWHERE, UPWARDS, DOWNWARDS, ORDERS } order;
    unsigned next;
    enum { OF_ALL_KINDS, TO_ONE_CELL, TO_NONE, WORDS_GO } go;
} chain;

static void draw_chain(void)
{
    draw_program((enum kind)any(KINDS));
    build_reference();
    chain.left = 1 + any(any(8) ? SHORT_CHAIN : LONG_CHAIN);
    chain.order = any(3) ? ANYWHERE : 1 + any(ORDERS - 1);
    chain.next = any(2) ? any(WORDS) : 0;
    chain.go = any(4) ? OF_ALL_KINDS : 1 + any(WORDS_GO - 1);
}

static unsigned first_under(unsigned cell)
{
    unsigned address = 0;

    while (address < WORDS && reference.under[address] != cell)
        address++;
    return address;
}

static unsigned last_under(unsigned cell)
{
    unsigned address = WORDS;

    while (address > 0 && reference.under[address - 1] != cell)
        address--;
    return address > 0 ? address - 1 : WORDS;
}

/* Often the ends of the program and of what is kept under a cell, and what is beside these. */
static unsigned any_address(void)
{
    unsigned cell = any(4) ? few[any(FEW)] : any_askable(), address = WORDS;

    if (chain.order == UPWARDS)
        return chain.next++ % WORDS;
    if (chain.order == DOWNWARDS)
        return chain.next-- % WORDS;
    switch (any(8)) {
    case 0:
        return any(2) ? 0 : WORDS - 1;
    case 1:
    case 2:
        address = first_under(cell);
        break;
    case 3:
    case 4:
        address = last_under(cell);
        break;
    default:
        break;
    }
    if (address == WORDS)
        return any(WORDS);
    return any(4) ? address : (address + (any(2) ? 1 : WORDS - 1)) % WORDS;
}

static uint16_t any_new_word(unsigned address)
{
    if (chain.go == TO_ONE_CELL && any(16))
        return any_word_under(few[1]);
    if (chain.go == TO_NONE && any(16))
        return any_word_under(UNKEPT);
    switch (any(12)) {
    case 0:
        return (uint16_t)two(reference.program + 2 * address);
    case 1:
        return any_word_under(reference.under[address]);
    case 2:
        return any_word_under(POINTED);
    case 3:
        return any_word_under(UNKEPT);
    case 4:
        return any_unlisted();
    case 5:
    case 6:
        return any_word_under(any_askable());
    case 7:
        return any_idle_word(few[any(FEW)]);
    case 8:
        return (uint16_t)any(0x10000);
    default:
        return any_word_under(few[any(FEW)]);
    }
}

/* ---- What was seen ---- */

enum seen {
    MADE, SAME_WORD, SAME_CELL, OTHER_CELL, CELL_TO_POINTED, POINTED_TO_CELL, CELL_TO_NONE, NONE_TO_CELL,
    POINTED_TO_NONE, NONE_TO_POINTED, POINTED_BOTH, NONE_BOTH, WAS_UNLISTED, NOW_UNLISTED, TOOK_FIRST, TOOK_LAST,
    TOOK_BETWEEN, TOOK_ONLY, PUT_FIRST, PUT_LAST, PUT_BETWEEN, PUT_ONLY, AT_FIRST_ADDRESS, AT_LAST_ADDRESS, SEEN
};

static const char *const seen_name[SEEN] = {
    "replacements", "by the same word", "by another word of the same cell", "from a cell to another",
    "from a cell to $00F", "from $00F to a cell", "from a cell to none", "from none to a cell", "from $00F to none",
    "from none to $00F", "by another word through $00F", "from none to none", "of an unlisted word",
    "by an unlisted word", "a cell loses its first", "a cell loses its last", "a cell loses one between",
    "a cell loses its only one", "a cell gets a new first", "a cell gets a new last", "a cell gets one between",
    "an empty cell gets one", "at address 0", "at address 4095"};

static unsigned long seen[SEEN];

static enum seen move_of(unsigned from, unsigned to)
{
    if (from == UNKEPT)
        return to == UNKEPT ? NONE_BOTH : to == POINTED ? NONE_TO_POINTED : NONE_TO_CELL;
    if (from == POINTED)
        return to == UNKEPT ? POINTED_TO_NONE : to == POINTED ? POINTED_BOTH : POINTED_TO_CELL;
    if (to == UNKEPT)
        return CELL_TO_NONE;
    return to == POINTED ? CELL_TO_POINTED : to == from ? SAME_CELL : OTHER_CELL;
}

/* Where the address stands among those of its cell, from `first_place` on: first, last, between, the only one. */
static enum seen place_of(const uint16_t *tables, unsigned cell, unsigned address, enum seen first_place)
{
    bool is_first = tables[cell] == address, is_last = tables[XREF_NEXT + address] == XREF_NONE;

    return first_place + (is_first && is_last ? 3u : is_first ? 0u : is_last ? 1u : 2u);
}

/* With the tables before in the reference, and those after it in `after`. */
static void count(unsigned address, uint16_t old, uint16_t word)
{
    unsigned from = kept_under(old), to = kept_under(word);

    seen[MADE]++;
    seen[old == word ? SAME_WORD : move_of(from, to)]++;
    seen[WAS_UNLISTED] += is_unlisted(old);
    seen[NOW_UNLISTED] += is_unlisted(word);
    if (from != to && from != UNKEPT)
        seen[place_of(reference.tables, from, address, TOOK_FIRST)]++;
    if (from != to && to != UNKEPT)
        seen[place_of(after.tables, to, address, PUT_FIRST)]++;
    seen[AT_FIRST_ADDRESS] += address == 0;
    seen[AT_LAST_ADDRESS] += address == WORDS - 1;
}

static void tell_seen(void)
{
    for (int what = 0; what < SEEN; what++) {
        printf("  %-36s %12lu\n", seen_name[what], seen[what]);
        check(seen[what] > 0, "no replacement: %s", seen_name[what]);
    }
}

/* ---- Replacing ---- */

/* No entry moves but that of the address: it goes from where it was to where its new word belongs. */
static void judge_entries(unsigned address, uint16_t word)
{
    static uint16_t under[WORDS];

    check(walk(after.tables, under), "after a replacement at $%03X tables do not ascend, or not to an end", address);
    check(under[address] == kept_under(word), "$%03X with $%04X is kept under $%03X, not $%03X", address, word,
          under[address], kept_under(word));
    reference.under[address] = under[address];
    check(memcmp(under, reference.under, sizeof under) == 0, "replacing at $%03X moves an entry of another address",
          address);
    memcpy(reference.under, under, sizeof under);
}

static void hold_against_fresh_build(unsigned address)
{
    static uint16_t numbers[XREF_NUMBERS];

    expect("building anew", pair_xref_build(LENT(reference.program), (struct lent_tables){numbers, XREF_NUMBERS}), 0,
           0);
    check(memcmp(after.tables, reference.tables, sizeof numbers) == 0,
          "replaced at $%03X, the tables are not those of a fresh build", address);
}

static void replace(unsigned address, uint16_t word)
{
    expect("replacing", pair_xref_replace(LENT(reference.program), REFERENCE, address, word), 0, 0);
    count(address, (uint16_t)two(reference.program + 2 * address), word);
    set_two(reference.program + 2 * address, word);
    check(memcmp(after.program, reference.program, PROGRAM_BYTES) == 0,
          "replacing at $%03X leaves the word or changes another", address);
    check(memcmp(after.tables + XREF_NUMBERS, reference.tables + XREF_NUMBERS,
                 sizeof *reference.tables * (reference.length - XREF_NUMBERS)) == 0,
          "replacing changes the numbers beyond");
    judge_entries(address, word);
    memcpy(reference.tables, after.tables, sizeof *reference.tables * reference.length);
    hold_against_fresh_build(address);
}

/* Each move between two cells, $00F and none, at the ends of the program and inside, where no other address is kept,
   only ones below, only ones above, or both. */
static void every_move(void)
{
    static const uint16_t addresses[] = {0, 1, WORDS / 2 - 1, WORDS / 2, WORDS - 2, WORDS - 1};
    static const uint16_t kept[] = {0x020, 0x36D, POINTED, UNKEPT};
    enum { ADDRESSES = sizeof addresses / sizeof addresses[0], KEPT = sizeof kept / sizeof kept[0] };
    enum { BELOW = 1, ABOVE = 2 };

    for (unsigned move = 0; move < ADDRESSES * KEPT * KEPT * 4; move++) {
        unsigned around = move % 4, from = kept[move / 4 % KEPT], to = kept[move / 4 / KEPT % KEPT];
        unsigned address = addresses[move / 4 / KEPT / KEPT];

        for (unsigned other = 0; other < WORDS; other++)
            set_two(reference.program + 2 * other, around & (other < address ? BELOW : ABOVE)
                                                       ? any_word_under(kept[any(KEPT - 1)]) : NOP);
        set_two(reference.program + 2 * address, any_word_under(from));
        build_reference();
        replace(address, any_word_under(to));
    }
}

/* The cell that the old word was kept under, the new one's, or any, in turn. */
static unsigned concerned(unsigned from, unsigned to)
{
    unsigned cell = seen[MADE] % 3 == 0 ? from : seen[MADE] % 3 == 1 ? to : UNKEPT;

    return is_askable(cell) ? cell : any_askable();
}

void compare_replacements(unsigned stride, unsigned cell_stride)
{
    unsigned long chains = 0, before = asked, everywhere = 0;

    every_move();
    while (seen[MADE] * stride < REPLACEMENTS) {
        for (draw_chain(), chains++; chain.left > 0; chain.left--) {
            unsigned address = any_address(), from = reference.under[address];

            replace(address, any_new_word(address));
            if (seen[MADE] % cell_stride == 0)
                ask(concerned(from, reference.under[address]));
            if (chain.left > 1 && seen[MADE] % ASKED_EVERYWHERE_ONE_IN != 0)
                continue;
            ask_everywhere(cell_stride);
            everywhere++;
        }
    }
    tell_seen();
    progress("cross-references: %lu replacements, every move at the ends and %lu chains, each against a fresh build "
             "and a walk; all cells asked after %lu of them, %lu answers in all; failed so far %lu", seen[MADE], chains,
             everywhere, asked - before, failed);
}
