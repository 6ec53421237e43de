/* How second.c judges what a call is lent, for the calls that stand in other files, and what all of them share. */
#ifndef SECOND_JUDGING_H
#define SECOND_JUDGING_H

#include "second.h"

static inline uint32_t answer(uint64_t *value, uint32_t number, uint64_t with)
{
    *value = with;
    return number;
}

static inline uint16_t word_at(const uint8_t *program, size_t address)
{
    return (uint16_t)(program[2 * address] << 8 | program[2 * address + 1]);
}

/* 2 and 3; answers and *value as in the calls. */
uint32_t second_judge_memory(const uint8_t *memory, size_t memory_len, uint64_t *value);

/* Whether an unpacked record keeps the rules that 4 stands for, with a memory that keeps its own. */
bool second_is_well_formed(const struct second_machine *machine);

bool second_is_known(uint8_t event);

bool second_is_data_display_or_scan(uint32_t cell);

bool second_is_wiring_length(size_t length);
bool second_is_good_wiring(const uint8_t *body, size_t length); /* of such a length */

#endif
