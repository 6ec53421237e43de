/* Finds by trial which cells an instruction word can change. */
#ifndef SECOND_SEARCH_H
#define SECOND_SEARCH_H

#include <stdbool.h>
#include <stdint.h>

/* cell is a data, display or scan cell. */
bool search_changes(uint16_t word, uint16_t cell);

/* The data, display or scan cell that the word changes by naming it; or that it changes the one that the pointer stands
   at; or that it changes none. */
enum { SEARCH_POINTED = 0x00F, SEARCH_NONE = 0x400 };

uint16_t search_kept_under(uint16_t word);

#endif
