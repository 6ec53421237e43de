/* A picture drawn for the eye, in plain letters so that every terminal shows it. */
#include "drawing.h"

#include <string.h>

enum { SEGMENTS = 7, ROWS = 7, WIDTH = 6, GAP = 3 };

/* Where each segment a to g stands in a digit's field of 7 rows and 6 columns. */
static const char *const shape[SEGMENTS][ROWS] = {
    {" ----", "", "", "", "", "", ""},
    {"", "     |", "     |", "", "", "", ""},
    {"", "", "", "", "     |", "     |", ""},
    {"", "", "", "", "", "", " ----"},
    {"", "", "", "", "|", "|", ""},
    {"", "|", "|", "", "", "", ""},
    {"", "", "", " ----", "", "", ""},
};

static void draw_digit_row(FILE *to, const uint8_t *segments, int row)
{
    char line[WIDTH + 1] = "      ";

    for (int segment = 0; segment < SEGMENTS; segment++)
        for (int column = 0; segments[segment] && shape[segment][row][column] != '\0'; column++)
            if (shape[segment][row][column] != ' ')
                line[column] = shape[segment][row][column];
    fprintf(to, "   %s", line);
}

static void draw_edge(FILE *to, size_t width)
{
    fprintf(to, "  +");
    for (size_t column = 0; column < width; column++)
        fprintf(to, "-");
    fprintf(to, "+\n");
}

static void draw_digits(FILE *to, const uint8_t *picture, size_t digits)
{
    size_t width = digits * (WIDTH + 3) + 3;

    draw_edge(to, width);
    for (int row = 0; row < ROWS; row++) {
        fprintf(to, "  |");
        for (size_t digit = 0; digit < digits; digit++)
            draw_digit_row(to, picture + SEGMENTS * digit, row);
        fprintf(to, "   |\n");
    }
    draw_edge(to, width);
}

void draw_picture(FILE *to, const uint8_t *picture, size_t elements, size_t digits, size_t columns)
{
    size_t first_lamp = SEGMENTS * digits;

    if (digits > 0)
        draw_digits(to, picture, digits);
    for (size_t row = first_lamp; row < elements; row += columns) {
        size_t end = elements - row < columns ? elements : row + columns;

        fprintf(to, "  ");
        for (size_t element = row; element < end; element++)
            fprintf(to, "%s", picture[element] ? " #" : " .");
        if (row > first_lamp)
            fprintf(to, "%*s", (int)(2 * (columns - (end - row))), "");
        fprintf(to, "   elements %zu to %zu\n", row, end - 1);
    }
}

/* ---- Side by side ---- */

static size_t widest_line(const char *text)
{
    size_t widest = 0;

    while (*text != '\0') {
        size_t width = strcspn(text, "\n");

        widest = width > widest ? width : widest;
        text += width + (text[width] == '\n');
    }
    return widest;
}

/* Shows the next line of a text, without its end, in so many columns at least, and answers where the rest begins. */
static const char *show_line(const char *text, size_t columns)
{
    size_t width = strcspn(text, "\n");

    printf("%-*.*s", (int)columns, (int)width, text);
    return text + width + (text[width] == '\n');
}

void show_beside(const char *left, const char *right)
{
    size_t columns = widest_line(left) + GAP;

    while (*left != '\0' || *right != '\0') {
        left = show_line(left, columns);
        right = show_line(right, 0);
        printf("\n");
    }
}
