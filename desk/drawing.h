/* A picture drawn for the eye. */
#ifndef DESK_DRAWING_H
#define DESK_DRAWING_H

#include <stddef.h>
#include <stdint.h>
#include <stdio.h>

/* Lamps in a row: of one picture, and of one with another beside it. */
enum { COLUMNS_USUAL = 16, COLUMNS_BESIDE = 8 };

/* The first 7 x digits elements are seven-segment digits, each with its elements in the order a to g; the others are
   lamps, so many in a row. */
void draw_picture(FILE *to, const uint8_t *picture, size_t elements, size_t digits, size_t columns);

/* Shows two texts, each line of one beside the same line of the other. */
void show_beside(const char *left, const char *right);

#endif
