/* Tries all 65,536 words on the second emulator and notes which askable cells each can change: trials FILE writes the
   notes. Each word is executed in all states of AC, CY and the nibble that the cells hold; a word that could mean the
   pointer also with the pointer at each askable cell in turn. The notes are held against the second emulator's own
   search (second/search.c), for every askable cell over a program with every form. */
#include "forms.h"

#include "../second/search.h"
#include "../second/second.h"

#include <stdio.h>
#include <stdlib.h>
#include <string.h>

enum { NIBBLES = 16, INX = 0x0F, UNMAPPED = 0x3FF, FIRST = 0x020, END = 0x36E, SEARCHED_ONE_IN = 4 };

static trial_row trials[0x10000];

/* A plain machine for each nibble that all askable cells hold. */
static struct second_machine plain[NIBBLES];

static void make_plain_machines(void)
{
    uint8_t memory[MEMORY_BYTES], record[RECORD_BYTES];
    uint64_t value;

    (void)second_fresh(memory, sizeof memory, record, sizeof record, 0, &value);
    for (uint8_t nibble = 0; nibble < NIBBLES; nibble++) {
        second_unpack(&plain[nibble], memory, record);
        for (unsigned cell = 0; cell < MEMORY_BYTES; cell++)
            if (is_askable(cell))
                plain[nibble].cell[cell] = nibble;
    }
}

static void note_changes(uint16_t word, const struct second_machine *before, const struct second_machine *now)
{
    if (memcmp(now->cell + FIRST, before->cell + FIRST, END - FIRST) == 0)
        return;
    for (unsigned cell = FIRST; cell < END; cell++)
        if (now->cell[cell] != before->cell[cell] && is_askable(cell))
            trials[word][cell / 8] |= (uint8_t)(1u << cell % 8);
}

/* With `until` not 0 the trial ends once that cell has changed. */
static void try_word(uint16_t word, unsigned pointer, unsigned until)
{
    for (int nibble = 0; nibble < NIBBLES; nibble++) {
        struct second_machine *start = &plain[nibble];

        start->cell[0x010] = pointer & 15;
        start->cell[0x011] = pointer >> 4 & 7;
        start->cell[0x012] = (uint8_t)(pointer >> 7);
        for (unsigned state = 0; state < 2 * NIBBLES; state++) {
            struct second_machine machine = *start;

            machine.ac = state & 15;
            machine.cy = (uint8_t)(state >> 4);
            if (!second_execute(&machine, word))
                return;
            note_changes(word, start, &machine);
            if (until != 0 && trial_of(trials, word, until))
                return;
        }
    }
}

static void try_all(void)
{
    make_plain_machines();
    for (uint32_t word = 0; word <= 0xFFFF; word++) {
        try_word((uint16_t)word, UNMAPPED, 0);
        if ((word & 0x7F) == INX)
            for (unsigned cell = FIRST; cell < END; cell++)
                if (is_askable(cell))
                    try_word((uint16_t)word, cell, cell);
    }
}

static void hold_against_search(void)
{
    static uint8_t program[PROGRAM_BYTES];

    for (unsigned cell = FIRST; cell < END; cell++) {
        unsigned words;

        if (!is_askable(cell))
            continue;
        words = program_about(program, cell);
        for (unsigned at = any(SEARCHED_ONE_IN); at < words; at += SEARCHED_ONE_IN) {
            uint16_t word = (uint16_t)two(program + 2 * at);

            check(search_changes(word, (uint16_t)cell) == trial_of(trials, word, cell),
                  "word $%04X and cell $%03X: search and trial differ", word, cell);
        }
    }
}

int main(int argc, char **argv)
{
    FILE *file;

    if (argc != 2) {
        fprintf(stderr, "usage: trials FILE\n");
        return 2;
    }
    try_all();
    progress("trials: all 65536 words tried");
    hold_against_search();
    file = fopen(argv[1], "wb");
    if (file == NULL || fwrite(trials, sizeof trials, 1, file) != 1 || fclose(file) != 0) {
        perror(argv[1]);
        return EXIT_FAILURE;
    }
    printf("%lu passed, %lu failed\n", passed, failed);
    return failed == 0 ? EXIT_SUCCESS : EXIT_FAILURE;
}
