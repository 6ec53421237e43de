/* The loads that are measured: programs and scripts, the same in every run of the bench. */
#ifndef BENCH_LOADS_H
#define BENCH_LOADS_H

#include <stddef.h>
#include <stdint.h>

/* Each program is written whole, GALHOVEIA_PROGRAM_BYTES long. */
void only_nops(uint8_t *program);
void only_writers(uint8_t *program, unsigned cell); /* every word stores to the cell */
void general_words(uint8_t *program);               /* every word needs the general event */
void mixed(uint8_t *program);
void calls_and_registers(uint8_t *program);
void all_forms(uint8_t *program);                   /* every mnemonic and unlisted words, each as often as another */

/* From here on LDA stands for DAA and DAS in mixed words, so that a library that adjusts AC comes to the same end. */
void without_decimals(void);

void only_cycles(uint8_t *script, size_t events);

/* A cycle and four sound clocks in turn, as one oscillator gives them. */
void cycles_and_sound(uint8_t *script, size_t events);

/* Cycles, and at every so many events one that gives a port new pins. */
void some_pins(uint8_t *script, size_t events, size_t every);

enum { CARS = 2, ENTRY_BYTES = 2 };

/* Whose the next entry is: drawn, the other car's than the last, or one car's for ROW entries. */
enum dealing { AT_RANDOM, BY_TURNS, IN_ROWS };
enum { ROW = 5000 };

/* A script of two cars, of so many entries: each car takes the events of a script from its beginning, own[car] of
   them. */
void deal(uint8_t *entries, size_t length, const uint8_t *script, enum dealing dealing, size_t own[CARS]);

struct replacement {
    uint16_t address, word;
};

/* As many replacements of the program's words, drawn, and then as many that take them back, the last one first. */
void forth_and_back(struct replacement *replacements, size_t forth, const uint8_t *program);

/* A wiring of GALHOVEIA_ELEMENTS_MOST elements, and something in the display cells of a memory. */
void full_panel(uint8_t *memory, uint8_t *wiring);

/* The program of the example's book, and its script again and again, without its sound clocks, which an earlier library
   may not know. A file that cannot be read is told, and ends the bench. */
void example_dispatcher(uint8_t *program, uint8_t *script, size_t events);

#endif
