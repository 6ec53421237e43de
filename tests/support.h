/* What the parts of the comparison share: counting, a random source, machines and programs made at random, and every
   call made on both emulators with the same lent bytes. */
#ifndef TESTS_SUPPORT_H
#define TESTS_SUPPORT_H

#include "chance.h"

#include <stdbool.h>
#include <stddef.h>
#include <stdint.h>

enum { PROGRAM_BYTES = 8192, MEMORY_BYTES = 1024, RECORD_BYTES = 45, WORDS = 4096, NO_STOP = 4096 };
enum { ELEMENTS_MOST = 240, WIRING_MOST = 3 * ELEMENTS_MOST };
enum { LINE_BYTES_MOST = 21, LISTING_BYTES_MOST = WORDS * LINE_BYTES_MOST };

/* A cross-reference: a number for each cell, then one for each address (02, P7). */
enum { XREF_NEXT = MEMORY_BYTES, XREF_NUMBERS = XREF_NEXT + WORDS, XREF_NONE = WORDS };

/* Where each field of the record begins (01, What is lent; 02, P1 and P2); channel 2 stands behind channel 1. */
enum {
    R_PC = 0, R_AC = 2, R_CY = 3, R_MODE = 4, R_STACK = 5, R_T0_PRESCALER = 21, R_T0_COUNTER = 23, R_T0_LOAD = 24,
    R_BASE_PRESCALER = 25, R_BASE_COUNTER = 26, R_WATCHDOG = 27, R_PINS = 29, R_OPTIONS = 33, R_PENDING = 34,
    R_PENDING_ADDRESS = 35, R_SOUND_COUNT = 37, R_SOUND_OUTPUT = 39, R_SOUND_BYTES = 3, R_FROZEN = 43,
    R_FROZEN_MARK = 44
};
enum { CHANNELS = 2, SOUND_COUNTS = 1016 };
enum { RUNNING = 0, IN_HALT = 1, IN_STOP = 2 };
enum { CYCLE = 0x00, BASE_PULSE = 0x01, WATCHDOG_PULSE = 0x02, RESET_PIN = 0x03, SOUND_CLOCK = 0x05 };
enum { PINS_A = 0x10, PINS_D = 0x40 };
enum { AT_ADDRESS = 0, AT_UNLISTED = 1, AT_END = 2 };

/* ---- Counting ---- */

extern unsigned long passed, failed;

/* Counts one comparison. The first failures are printed, the others only counted. */
void check(bool holds, const char *format, ...) __attribute__((format(printf, 2, 3)));

/* A line that is seen at once, so that a long test shows that it moves. */
void progress(const char *format, ...) __attribute__((format(printf, 1, 2)));

/* ---- Machines and programs ---- */

struct machine {
    uint8_t memory[MEMORY_BYTES];
    uint8_t record[RECORD_BYTES];
};

unsigned two(const uint8_t *bytes);
void set_two(uint8_t *bytes, unsigned number);

bool is_unlisted(uint16_t word);
bool is_known(unsigned event);
bool is_askable(uint32_t cell); /* a data, display or scan cell */
bool is_display(uint32_t cell);
uint8_t bits_held(unsigned address);
unsigned ratio_of(uint8_t timer0_mode);
unsigned base_ratio_of(uint8_t base_mode);
unsigned period_of(uint8_t watchdog_register);
bool base_is_on(uint8_t base_mode);

/* What a word does with the cell that it names, which through $00F is the one that the pointer stands at. A word that
   names none, or is unlisted, does nothing with it. */
struct touch {
    unsigned cell;
    bool through_pointer, reads, writes;
};

struct touch touch_of(uint16_t word, unsigned pointer);
unsigned pointer_of(const uint8_t memory[MEMORY_BYTES]);

/* The low nibble of Timer0's counter is frozen, sometimes as 0, or it is not. */
void set_frozen(struct machine *machine, bool frozen);

/* Any well-formed machine; the registers that make things happen are drawn so that they do. */
void random_machine(struct machine *machine);

/* Changes a well-formed machine into another in which something is about to happen: one that nothing can wake gets
   interrupts enabled, counters move close to their end, requests and outputs change. */
void nudge(struct machine *machine);

/* What a program is mostly about. */
enum mix { MIX_BUSY, MIX_TIMERS, MIX_ASLEEP, MIX_READS, MIX_NESTED, MIX_ANY, MIXES };

void random_program(uint8_t program[PROGRAM_BYTES], enum mix mix);
void random_script(uint8_t *script, size_t length, enum mix mix);
void random_wiring(uint8_t *body, unsigned elements);

/* ---- Every call on both sides ---- */

struct lent {
    const uint8_t *bytes;
    size_t length;
};

#define LENT(area) ((struct lent){(area), sizeof(area)})

struct lent_tables {
    const uint16_t *numbers;
    size_t length; /* counted in numbers */
};

enum call {
    STEP, RUN, LIST, LEVEL, FRESH, PICTURE, BOOK_READ, BOOK_WRITE, LISTING_WRITE, LISTING_READ, RUN_TWO, XREF_BUILD,
    XREF_LIST, XREF_REPLACE, CALLS
};
enum { REFUSALS = 30, CARS = 2 };

extern const char *const call_name[CALLS];
extern unsigned long reached[CALLS][REFUSALS];

/* What the last pair of calls came to; both sides agree in it, or a failure has been counted. */
extern struct after {
    uint64_t value;
    uint32_t reason;
    uint64_t events;
    int32_t level;
    uint64_t count;
    uint64_t part[6];
    uint32_t reason_of[CARS];
    uint64_t entries;
    const uint8_t *memory, *record, *output;
    const uint8_t *memory_of[CARS], *record_of[CARS], *picture_of[CARS];
    const uint8_t *program;
    const uint16_t *tables;
} after;

/* Each lends copies of the bytes to both emulators, ending right before a page that cannot be touched, and compares
   the answers, the out values, and every lent byte. It also holds each side to 01's rule that a refusal changes
   nothing. They answer what galhoveia answered. `output` is what stands in the room before the call. */
uint32_t pair_step(struct lent program, struct lent memory, struct lent record, uint8_t event);
uint32_t pair_run(struct lent program, struct lent memory, struct lent record, struct lent script, uint32_t stop);
uint32_t pair_list(struct lent program, uint32_t cell, struct lent output);
uint32_t pair_level(struct lent memory, struct lent body);
uint32_t pair_fresh(struct lent memory, struct lent record, uint32_t options);
uint32_t pair_picture(struct lent memory, struct lent record, struct lent body, struct lent output);
uint32_t pair_book_read(struct lent book);
uint32_t pair_book_write(struct lent program, struct lent wiring, struct lent level, struct lent output);
uint32_t pair_listing_write(struct lent program, struct lent output);
uint32_t pair_listing_read(struct lent text, struct lent output);

uint32_t pair_xref_build(struct lent program, struct lent_tables tables);
uint32_t pair_xref_list(struct lent program, struct lent_tables tables, uint32_t cell, struct lent output);
uint32_t pair_xref_replace(struct lent program, struct lent_tables tables, uint32_t address, uint16_t word);

struct lent_car {
    struct lent memory, record, picture;
    uint32_t stop;
};

uint32_t pair_run_two(struct lent program, struct lent wiring, const struct lent_car car[CARS], struct lent script);

/* Holds an answer and its value to what the documents say. */
void expect(const char *what, uint32_t answer, uint32_t number, uint64_t value);

#endif
