/* An emulator of the SH67P54 after documents 01, 02 and 003, written apart from the proved one so that the two can be
   held against each other. */
#ifndef SECOND_SECOND_H
#define SECOND_SECOND_H

#include <stdbool.h>
#include <stddef.h>
#include <stdint.h>

#define SECOND_WORDS         4096
#define SECOND_PROGRAM_BYTES (2 * SECOND_WORDS)
#define SECOND_CELLS         1024
#define SECOND_LEVELS        8
#define SECOND_TONES         2
#define SECOND_RECORD_BYTES  45

/* A listing of 4,096 lines, each as long as the longest: 011 68A0 EORIM 020 1 and its line feed. */
#define SECOND_LISTING_BYTES_MOST (21 * SECOND_WORDS)

/* The cross-reference of a program: a number for each cell, then one for each address. */
#define SECOND_XREF_NUMBERS (SECOND_CELLS + SECOND_WORDS)

enum second_reason { SECOND_AT_ADDRESS = 0, SECOND_AT_UNLISTED = 1, SECOND_AT_END = 2 };
enum second_mode { SECOND_RUNNING = 0, SECOND_HALT = 1, SECOND_STOP = 2 };

/* Every call answers 0 or document 01's refusal number. *value is always written: what goes with the refusal, or 0.
   Every other out number is written only when there is something to tell. Pointers are valid for the length beside
   them, and nothing overlaps. */

uint32_t second_step(const uint8_t *program, size_t program_len, uint8_t *memory, size_t memory_len,
                     uint8_t *record, size_t record_len, uint8_t event, uint64_t *value);

/* A run refused by 6 still tells its reason and events, and keeps the state after those events. */
uint32_t second_run(const uint8_t *program, size_t program_len, uint8_t *memory, size_t memory_len,
                    uint8_t *record, size_t record_len, const uint8_t *script, size_t script_len,
                    uint32_t stop, uint32_t *reason, uint64_t *events, uint64_t *value);

/* Two cars over one program and one wiring (two.c). An unlisted word is no refusal here, but its car's reason. */
uint32_t second_run_two(const uint8_t *program, size_t program_len, const uint8_t *wiring, size_t wiring_len,
                        uint8_t *memory0, size_t memory0_len, uint8_t *record0, size_t record0_len,
                        uint8_t *picture0, size_t room0,
                        uint8_t *memory1, size_t memory1_len, uint8_t *record1, size_t record1_len,
                        uint8_t *picture1, size_t room1,
                        const uint8_t *script, size_t script_len, uint32_t stop0, uint32_t stop1,
                        uint32_t *reason0, uint32_t *reason1, uint64_t *entries, uint64_t *value);

uint32_t second_list(const uint8_t *program, size_t program_len, uint32_t cell,
                     uint8_t *addresses, size_t room, uint64_t *count, uint64_t *value);

/* A program's writers in lent tables, counted in numbers (xref.c). */
uint32_t second_xref_build(const uint8_t *program, size_t program_len, uint16_t *tables, size_t tables_len,
                           uint64_t *value);

uint32_t second_xref_list(const uint8_t *program, size_t program_len, const uint16_t *tables, size_t tables_len,
                          uint32_t cell, uint8_t *addresses, size_t room, uint64_t *count, uint64_t *value);

uint32_t second_xref_replace(uint8_t *program, size_t program_len, uint16_t *tables, size_t tables_len,
                             uint32_t address, uint16_t word, uint64_t *value);

uint32_t second_level(const uint8_t *memory, size_t memory_len, const uint8_t *body, size_t body_len,
                      int32_t *level, uint64_t *value);

uint32_t second_fresh(uint8_t *memory, size_t memory_len, uint8_t *record, size_t record_len,
                      uint32_t options, uint64_t *value);

uint32_t second_picture(const uint8_t *memory, size_t memory_len, const uint8_t *record, size_t record_len,
                        const uint8_t *body, size_t body_len, uint8_t *picture, size_t room,
                        uint64_t *count, uint64_t *value);

/* The outs are offsets into the book and lengths of its three bodies. */
uint32_t second_book_read(const uint8_t *book, size_t book_len, uint64_t *program, uint64_t *program_len,
                          uint64_t *wiring, uint64_t *wiring_len, uint64_t *level, uint64_t *level_len,
                          uint64_t *value);

uint32_t second_book_write(const uint8_t *program, size_t program_len, const uint8_t *wiring, size_t wiring_len,
                           const uint8_t *level, size_t level_len, uint8_t *book, size_t room,
                           uint64_t *count, uint64_t *value);

/* Programs as text, one line for each word (listing.c). */
uint32_t second_listing_write(const uint8_t *program, size_t program_len, uint8_t *text, size_t room,
                              uint64_t *count, uint64_t *value);

uint32_t second_listing_read(const uint8_t *text, size_t text_len, uint8_t *program, size_t room, uint64_t *value);

/* One sound channel: the clocks left up to the next turn of its output, and the output. */
struct second_tone {
    uint16_t count;
    uint8_t output;
};

/* The machine taken apart, for callers that keep it so between runs. Nothing below judges what it is given. */
struct second_machine {
    uint16_t pc;
    uint8_t ac;
    uint8_t cy;
    uint8_t mode;
    uint8_t timer0_counter;
    uint8_t timer0_load;
    uint8_t base_prescaler;
    uint8_t base_counter;
    uint8_t options;
    uint8_t pending;
    uint8_t pins[4];
    uint8_t frozen; /* the low nibble that the next read of $004 gives where the mark is 1 */
    uint8_t frozen_mark;
    uint16_t pending_address;
    uint16_t timer0_prescaler;
    uint16_t watchdog;
    uint16_t stack[SECOND_LEVELS];
    struct second_tone tone[SECOND_TONES];
    uint8_t cell[SECOND_CELLS];
};

void second_unpack(struct second_machine *machine, const uint8_t *memory, const uint8_t *record);
void second_pack(const struct second_machine *machine, uint8_t *memory, uint8_t *record);

/* At an unlisted word the machine is left in front of it, so its address is machine->pc. */
enum second_reason second_run_machine(struct second_machine *machine, const uint8_t *program,
                                      const uint8_t *script, size_t script_len, uint32_t stop, uint64_t *events);

/* One instruction as if it stood at machine->pc, without the rest of its cycle; an unlisted word answers false and
   changes nothing. */
bool second_execute(struct second_machine *machine, uint16_t word);

#endif
