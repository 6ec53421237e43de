/* The cross-reference of a program (02, P7). Which cell each word is kept under is found by trial (search.c). Tables
   are never mended: they are filled anew from the whole program, to be handed out and to be held against lent ones. */
#include "judging.h"
#include "search.h"
#include "second.h"

#include <string.h>

enum { DONE = 0, PROGRAM_LENGTH = 1, ROOM = 7, ASKED_CELL = 8, FIELD = 13, TABLES = 29 };
enum { NO_ADDRESS = SECOND_WORDS };

static void put_pair(uint8_t *at, unsigned number)
{
    at[0] = (uint8_t)(number >> 8);
    at[1] = (uint8_t)number;
}

/* A word is tried when it is met for the first time; what was found stays for later calls. */
static uint16_t kept_under(uint16_t word)
{
    static uint16_t found[0x10000]; /* one more than the answer, 0 where the word was not met */

    if (found[word] == 0)
        found[word] = (uint16_t)(search_kept_under(word) + 1);
    return (uint16_t)(found[word] - 1);
}

/* From the last address down: first[c] is always the lowest address from there on that is kept under cell c. */
static void fill(uint16_t tables[SECOND_XREF_NUMBERS], const uint8_t *program)
{
    uint16_t *first = tables, *next = tables + SECOND_CELLS;

    for (size_t at = 0; at < SECOND_XREF_NUMBERS; at++)
        tables[at] = NO_ADDRESS;
    for (size_t address = SECOND_WORDS; address-- > 0;) {
        uint16_t cell = kept_under(word_at(program, address));

        if (cell == SEARCH_NONE)
            continue;
        next[address] = first[cell];
        first[cell] = (uint16_t)address;
    }
}

static bool are_tables_of(const uint8_t *program, const uint16_t *tables, size_t tables_len)
{
    uint16_t fresh[SECOND_XREF_NUMBERS];

    if (tables_len < SECOND_XREF_NUMBERS)
        return false;
    fill(fresh, program);
    return memcmp(tables, fresh, sizeof fresh) == 0;
}

uint32_t second_xref_build(const uint8_t *program, size_t program_len, uint16_t *tables, size_t tables_len,
                           uint64_t *value)
{
    if (program_len != SECOND_PROGRAM_BYTES)
        return answer(value, PROGRAM_LENGTH, program_len);
    if (tables_len < SECOND_XREF_NUMBERS)
        return answer(value, ROOM, SECOND_XREF_NUMBERS);
    fill(tables, program);
    return answer(value, DONE, 0);
}

/* Tables that are the program's say nothing that its words don't say, so the words are asked. */
uint32_t second_xref_list(const uint8_t *program, size_t program_len, const uint16_t *tables, size_t tables_len,
                          uint32_t cell, uint8_t *addresses, size_t room, uint64_t *count, uint64_t *value)
{
    uint16_t writers[SECOND_WORDS];
    size_t found = 0;

    if (program_len != SECOND_PROGRAM_BYTES)
        return answer(value, PROGRAM_LENGTH, program_len);
    if (!second_is_data_display_or_scan(cell))
        return answer(value, ASKED_CELL, cell);
    if (!are_tables_of(program, tables, tables_len))
        return answer(value, TABLES, 0);
    for (size_t address = 0; address < SECOND_WORDS; address++) {
        uint16_t under = kept_under(word_at(program, address));

        if (under == cell || under == SEARCH_POINTED)
            writers[found++] = (uint16_t)address;
    }
    if (room < 2 * found)
        return answer(value, ROOM, 2 * found);
    for (size_t place = 0; place < found; place++)
        put_pair(addresses + 2 * place, writers[place]);
    *count = 2 * found;
    return answer(value, DONE, 0);
}

uint32_t second_xref_replace(uint8_t *program, size_t program_len, uint16_t *tables, size_t tables_len,
                             uint32_t address, uint16_t word, uint64_t *value)
{
    if (program_len != SECOND_PROGRAM_BYTES)
        return answer(value, PROGRAM_LENGTH, program_len);
    if (address >= SECOND_WORDS)
        return answer(value, FIELD, 0);
    if (!are_tables_of(program, tables, tables_len))
        return answer(value, TABLES, 0);
    put_pair(program + 2 * address, word);
    fill(tables, program);
    return answer(value, DONE, 0);
}
