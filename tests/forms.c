/* The trials as they are kept in a file, and a program with every form that could touch a cell or miss it narrowly. */
#include "forms.h"

#include <stdio.h>
#include <stdlib.h>
#include <string.h>

enum { INX = 0x0F, STA = 0x3C00 };

trial_row *read_trials(const char *path)
{
    FILE *file = fopen(path, "rb");
    trial_row *trials = calloc(0x10000, sizeof *trials);

    if (trials == NULL || file == NULL || fread(trials, sizeof *trials, 0x10000, file) != 0x10000 || getc(file) != EOF) {
        printf("%s does not hold the trials of 65536 words\n", path);
        exit(EXIT_FAILURE);
    }
    fclose(file);
    return trials;
}

static uint8_t *filling;
static unsigned filled;

static void put(unsigned word)
{
    if (filled == WORDS / 2) {
        printf("the program of forms is too long\n");
        exit(EXIT_FAILURE);
    }
    set_two(filling + 2 * filled++, word);
}

static void put_forms(unsigned cell)
{
    for (unsigned form = 0; form < 16; form++)
        put(form << 10 | cell);
    if (cell >= 128)
        return;
    for (unsigned form = 8; form < 16; form++)
        for (unsigned number = 0; number < 16; number++)
            put(form << 11 | number << 7 | cell);
    put(0xCB00 | cell);
    put(0xCB80 | cell);
    put(0xCD00 | cell);
    put(0xCD80 | cell);
}

/* The cell itself, the pointer, the same X in the other banks, $00F's X in the other banks, and the neighbours. */
unsigned program_about(uint8_t program[PROGRAM_BYTES], unsigned cell)
{
    filling = program;
    filled = 0;
    memset(program, 0xFF, PROGRAM_BYTES);
    put_forms(cell);
    put_forms(INX);
    for (unsigned bank = 0; bank < 8; bank++) {
        if (bank != cell >> 7)
            put_forms(bank << 7 | (cell & 127));
        if (bank != 0)
            put(STA | bank << 7 | INX);
    }
    put_forms((cell + 1) & 0x3FF);
    put_forms(cell - 1);
    for (unsigned rest = 0; rest < 100; rest++)
        put(0x8000 + any(0x8000));
    set_two(program + 2 * (WORDS / 2), STA | INX);
    set_two(program + 2 * (WORDS - 1), STA | cell);
    return filled;
}
