/* The cell that each word is kept under, by the documents' words, and programs drawn by it. */
#include "compare_xref.h"

#include "forms.h"

#include <stdlib.h>
#include <string.h>

/* By bits 15-11. */
enum { ADIM = 9, SBIM = 11, EORIM = 12, ORIM = 13, ANDIM = 14 };
enum { NOP = 0xFFFF, KEPT = UNKEPT + 1 };

static uint16_t kept[0x10000];

/* All words by what they are kept under. */
static uint16_t words_by_kept[0x10000];
static unsigned kept_begins[KEPT + 1];

/* Whether it leaves every cell as it is: 0 added, subtracted, exclusive or, or; and with 15. */
static bool is_idle(uint16_t word)
{
    unsigned code = word >> 11, number = word >> 7 & 15;

    if (code == ANDIM)
        return number == 15;
    return (code == ADIM || code == SBIM || code == EORIM || code == ORIM) && number == 0;
}

/* 01, Instruction words and One instruction; 02, P7. */
static unsigned by_the_documents(uint16_t word)
{
    struct touch touch = touch_of(word, POINTED);

    if (!touch.writes || is_idle(word) || !(touch.through_pointer || is_askable(touch.cell)))
        return UNKEPT;
    return touch.cell;
}

static void hold_against_trials(const char *path)
{
    trial_row *trials = read_trials(path);

    for (uint32_t word = 0; word <= 0xFFFF; word++) {
        unsigned differ = 0;

        for (unsigned cell = 0; cell < MEMORY_BYTES; cell++)
            if (is_askable(cell))
                differ += trial_of(trials, (uint16_t)word, cell) != (kept[word] == cell || kept[word] == POINTED);
        check(differ == 0, "$%04X is kept under $%03X, and by its trials %u cells differ", word, kept[word], differ);
    }
    free(trials);
}

void sort_words(const char *trials)
{
    unsigned at = 0;

    for (uint32_t word = 0; word <= 0xFFFF; word++)
        kept[word] = (uint16_t)by_the_documents((uint16_t)word);
    for (unsigned under = 0; under < KEPT; under++) {
        kept_begins[under] = at;
        for (uint32_t word = 0; (is_askable(under) || under == POINTED || under == UNKEPT) && word <= 0xFFFF; word++)
            if (kept[word] == under)
                words_by_kept[at++] = (uint16_t)word;
    }
    kept_begins[KEPT] = at;
    check(at == 0x10000, "%u words are kept under a cell, $00F or none", at);
    hold_against_trials(trials);
    progress("cross-references: what all 65536 words are kept under, %u of them a cell or $00F, against their trials; "
             "failed so far %lu", kept_begins[UNKEPT], failed);
}

unsigned kept_under(uint16_t word)
{
    return kept[word];
}

uint16_t any_word_under(unsigned under)
{
    return words_by_kept[kept_begins[under] + any(kept_begins[under + 1] - kept_begins[under])];
}

uint16_t any_unlisted(void)
{
    uint16_t word;

    do
        word = any_word_under(UNKEPT);
    while (!is_unlisted(word));
    return word;
}

unsigned any_askable(void)
{
    static const uint16_t ends[] = {0x020, 0x07F, 0x080, 0x16F, 0x300, 0x348, 0x358, 0x36D};
    unsigned cell;

    if (any(8) == 0)
        return ends[any(sizeof ends / sizeof ends[0])];
    do
        cell = any(MEMORY_BYTES);
    while (!is_askable(cell));
    return cell;
}

uint16_t any_idle_word(unsigned cell)
{
    static const uint16_t codes[] = {ADIM << 11, SBIM << 11, EORIM << 11, ORIM << 11, ANDIM << 11 | 15 << 7};

    return (uint16_t)(codes[any(sizeof codes / sizeof codes[0])] | (cell & 0x7F));
}

/* ---- Programs ---- */

unsigned few[FEW];

static uint16_t any_word(enum kind kind)
{
    uint16_t word = (uint16_t)any(0x10000);

    switch (kind) {
    case ANY_WORDS:
        return word;
    case LISTED_WORDS:
        while (is_unlisted(word))
            word = (uint16_t)any(0x10000);
        return word;
    case FEW_CELLS:
        return any_word_under(any(8) ? few[any(FEW)] : UNKEPT);
    case ONE_CELL:
        return any_word_under(few[0]);
    case ALL_POINTED:
        return any_word_under(POINTED);
    case EVERY_CELL:
        return any_word_under(any(32) ? any_askable() : POINTED);
    case SPARSE:
        return any(64) ? NOP : any_word_under(few[any(FEW)]);
    case MOSTLY_UNLISTED:
        return any(4) ? any_unlisted() : any_word_under(few[any(FEW)]);
    default:
        return NOP;
    }
}

void draw_program(enum kind kind)
{
    for (int at = 0; at < FEW; at++)
        few[at] = at > 0 && any(3) == 0 ? POINTED : any_askable();
    if (kind == WHAT_MACHINES_RUN)
        random_program(reference.program, (enum mix)any(MIXES));
    else if (kind == EVERY_FORM)
        (void)program_about(reference.program, few[0]);
    else
        for (unsigned address = 0; address < WORDS; address++)
            set_two(reference.program + 2 * address, any_word(kind));
}
