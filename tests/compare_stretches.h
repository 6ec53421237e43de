/* Stretches of quiet cycles that end in each way on purpose: the ways, what is drawn, and how one was seen to end. A
   cycle is quiet where nothing but PC, AC, CY, the stack, Timer0's count and cells without effects of their own moves:
   no read of program data is under way, no interrupt is due or becomes due, and Timer0 does not overflow. In a sounding
   stretch sound clocks stand between the cycles, which they leave quiet. */
#ifndef TESTS_COMPARE_STRETCHES_H
#define TESTS_COMPARE_STRETCHES_H

#include "../second/second.h"
#include "support.h"

enum { QUIET_LEAST = 100, SCRIPT_ROOM = 1 << 14, RATIOS = 7, PIN_SOURCE = 7 };
enum { SOURCE_BITS = 7, RELOAD_BIT = 8 }; /* of $002 */
enum { EXTERNAL = 8, TIMER0 = 4, BASE = 2, PORT = 1 };

enum way {
    BY_OVERFLOW, /* a way for each ratio, without reload and with */
    BY_PIN_COUNT = BY_OVERFLOW + 2 * RATIOS, BY_PIN_OVERFLOW,
    DUE_BY_OVERFLOW, DUE_BY_PIN_OVERFLOW, DUE_BY_EXTERNAL, DUE_BY_PORT_B, DUE_BY_PORT_C, DUE_BY_BASE, DUE_BY_000,
    DUE_BY_001,
    BY_PINS_A, BY_PINS_B, BY_PINS_C, BY_PINS_D, BY_BASE_PULSE, BY_WATCHDOG_PULSE, BY_WATCHDOG_RESET, BY_PIN_RESET,
    BY_SOUND_CLOCK,
    BY_UNLISTED,
    STOP_BY_GOING_ON, STOP_BY_BRANCH, STOP_BY_CALL, STOP_BY_RTNI, STOP_BY_RTNW, STOP_BY_TJMP, STOP_BY_INTERRUPT,
    STOP_AND_DUE, STOP_FROM_THE_START,
    BY_HALT, BY_STOP, BY_ROM_READ, BY_ROM_READ_AND_HALT,
    BY_WRITE_002, BY_WRITE_003, BY_WRITE_004, BY_WRITE_005, BY_RELEASING_005, BY_WRITE_01E, BY_READ_004, BY_READ_005,
    BY_FROZEN_READ_004, BY_FROZEN_READ_005, BY_BOTH_HALVES, BY_READ_01E, BY_OTHER_CELL, BY_DECIMAL_ON_REGISTER,
    BY_END, END_BEFORE_OVERFLOW, END_AT_OVERFLOW, END_AFTER_OVERFLOW, SCRIPT_OF_NONE, SCRIPT_OF_ONE, SCRIPT_OF_TWO, WAYS
};

/* Whether a stretch can end so awake, or asleep in HALT, without sound clocks, or sounding. */
bool is_possible(enum way way, bool asleep, bool sounding);

/* ---- What is drawn ---- */

extern struct stretch {
    uint8_t program[PROGRAM_BYTES];
    struct machine start;
    uint8_t script[SCRIPT_ROOM];
    size_t length;
    uint32_t stop;
    unsigned page;    /* where the program stands, $000 or $800 */
    unsigned enabled; /* the only bits of $000, and none of $001, until the end */
} drawn;

/* A stretch that is to end in this way, and some events after it; where beside, Timer0 overflows close to that end. */
void draw_stretch(enum way way, bool asleep, bool beside, bool sounding);

/* ---- What is quiet ---- */

/* Codes of bits 15-10, codes of bits 15-11, and words. */
enum { LDA = 14, STA = 15 };
enum { ADI = 8, SBI = 10, ORIM = 13, ANDIM = 14, LDI = 15 };
enum {
    CALL = 0xC000, DAA = 0xCB00, DAS = 0xCD00, RTNW = 0xD000, RTNI_WORD = 0xD400, HALT_WORD = 0xD800,
    STOP_WORD = 0xDC00, JMP = 0xE000, SHR = 0xF000, TJMP_WORD = 0xF7FF, NOP_WORD = 0xFFFF
};
enum { TBR = 0x0E, INX = 0x0F, DPL = 0x10, DPM = 0x11, DPH = 0x12, EDGES = 0x13, PACR = 0x16 };

/* In a page: the main part, which begins at MAIN, calls up to MAIN_LAST and has room for the words of an end after
   that, and what only an end comes to: a routine, and words that jump about. */
enum { MAIN = 0x010, MAIN_LAST = 0x3E0, MAIN_END = 0x400, LAST_ROUTINE = 0x600, LAST_WORDS = 0x700, PAGE = 0x800 };

/* A program, and a machine that stands at its main part, awake; a read may be under way. */
void draw_quiet(unsigned enabled);

void put(unsigned address, unsigned word);
unsigned immediate(unsigned code, unsigned nibble, unsigned cell);
unsigned any_data(void);
unsigned plain_word(void); /* a quiet word that leads to the next */

/* ---- What ends it ---- */

void happens(uint8_t event);
void cycles(size_t number);
void goes_on(size_t number); /* so many quiet cycles, and on to where the main part stands */
void stop_by_entry(unsigned source); /* the source is the only one that becomes due */
void put_end(enum way way, bool asleep);

/* ---- What is seen ---- */

void watch_begins(void);
void watch_event(const struct second_machine *before, const struct second_machine *now, uint8_t event);
void watch_ends(const struct second_machine *now, enum second_reason reason);

/* Tells for each way how many stretches were seen to end so; none is a failure. */
void tell_ways(void);

#endif
