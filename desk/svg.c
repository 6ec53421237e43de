/* A picture as SVG within a page. */
#include "svg.h"

/* All lengths are in the drawing's own units: about a pixel each where the page has room for the whole drawing. */
enum {
    SEGMENTS = 7,
    MARGIN = 22,                                  /* from the plate's edge to what is on it */
    DIGIT_WIDTH = 60, DIGIT_HEIGHT = 104, DIGIT_PITCH = 86, DIGIT_ROW = 142, DIGITS_IN_ROW = 8, GLASS_EDGE = 20,
    LAMP_PITCH = 40, LAMP_ROW = 58, LAMP_RADIUS = 9, /* of a lit lamp; a dark one is smaller by its rays' room */
    SCREW_RADIUS = 5, SCREW_AT = 13
};

/* A picture's extent: digits in rows on a glass, the lamps in rows below it. */
struct layout {
    size_t elements, digits, lamps, digits_in_row, digit_rows, lamps_in_row, lamp_rows;
    size_t glass_width, glass_height, width, height;
};

static size_t at_most(size_t number, size_t most)
{
    return number < most ? number : most;
}

static struct layout layout_of(size_t elements, struct look look)
{
    struct layout layout = {.elements = elements, .digits = look.digits};
    size_t inner;

    layout.lamps = elements - SEGMENTS * layout.digits;
    layout.digits_in_row = at_most(layout.digits, DIGITS_IN_ROW);
    layout.digit_rows = (layout.digits + DIGITS_IN_ROW - 1) / DIGITS_IN_ROW;
    layout.lamps_in_row = at_most(layout.lamps, look.columns);
    layout.lamp_rows = (layout.lamps + look.columns - 1) / look.columns;
    if (layout.digits > 0) {
        layout.glass_width = layout.digits_in_row * DIGIT_PITCH + GLASS_EDGE;
        layout.glass_height = layout.digit_rows * DIGIT_ROW + GLASS_EDGE;
    }
    inner = layout.lamps_in_row * LAMP_PITCH;
    inner = inner > layout.glass_width ? inner : layout.glass_width;
    layout.width = inner + 2 * MARGIN;
    layout.height = layout.glass_height + layout.lamp_rows * LAMP_ROW + 2 * MARGIN;
    return layout;
}

/* ---- One element ---- */

/* The corners of each segment a to g. */
static const char *const segment_corners[SEGMENTS] = {
    "8,6 13,1 47,1 52,6 47,11 13,11",
    "54,8 59,13 59,45 54,50 49,45 49,13",
    "54,54 59,59 59,91 54,96 49,91 49,59",
    "8,98 13,93 47,93 52,98 47,103 13,103",
    "6,54 11,59 11,91 6,96 1,91 1,59",
    "6,8 11,13 11,45 6,50 1,45 1,13",
    "8,52 13,47 47,47 52,52 47,57 13,57",
};

/* An element's group begins with which it is, where it is wired to, and whether it is lit. */
static void begin_element(struct page *page, const struct book *book, const struct picture *picture, size_t element)
{
    const uint8_t *wired = book->wiring.at + GALHOVEIA_ELEMENT_BYTES * element;
    const bool lit = picture->at[element] != 0;

    put_form(page, "<g class=\"%s\" data-element=\"%zu\" data-lit=\"%d\" data-cell=\"%03X\" data-bit=\"%u\">"
                   "<title>element %zu, cell $%03X bit %u: %s</title>", lit ? "lit" : "dark", element, lit, two(wired),
             wired[2], element, two(wired), wired[2], lit ? "lit" : "dark");
}

static void draw_segment(struct page *page, const struct book *book, const struct picture *picture, size_t element)
{
    begin_element(page, book, picture, element);
    put_form(page, "<polygon points=\"%s\"/></g>\n", segment_corners[element % SEGMENTS]);
}

/* Eight rays around a lamp that is lit. */
#define RAYS "M13.5 0H17M-13.5 0H-17M0 13.5V17M0-13.5V-17M9.5 9.5L12 12M-9.5 9.5L-12 12M9.5-9.5L12-12M-9.5-9.5L-12-12"

static void draw_lamp(struct page *page, const struct book *book, const struct picture *picture, size_t element)
{
    begin_element(page, book, picture, element);
    put_form(page, "<circle r=\"%d\"/>%s</g>", LAMP_RADIUS,
             picture->at[element] ? "<path class=\"rays\" d=\"" RAYS "\"/>" : "");
}

/* ---- The plate ---- */

static void draw_screw(struct page *page, size_t x, size_t y)
{
    put_form(page, "<g class=\"screw\" transform=\"translate(%zu %zu) rotate(%zu)\"><circle r=\"%d\"/>"
                   "<path d=\"M-%d 0H%d\"/></g>\n", x, y, (x + 2 * y) % 180, SCREW_RADIUS, SCREW_RADIUS - 1,
             SCREW_RADIUS - 1);
}

static void draw_plate(struct page *page, const struct layout *layout)
{
    const size_t right = layout->width - SCREW_AT, low = layout->height - SCREW_AT;

    put_form(page, "<rect class=\"plate\" x=\"1\" y=\"1\" width=\"%zu\" height=\"%zu\" rx=\"12\"/>\n",
             layout->width - 2, layout->height - 2);
    draw_screw(page, SCREW_AT, SCREW_AT);
    draw_screw(page, right, SCREW_AT);
    draw_screw(page, SCREW_AT, low);
    draw_screw(page, right, low);
}

static void draw_digits(struct page *page, const struct book *book, const struct picture *picture,
                        const struct layout *layout)
{
    const size_t left = (layout->width - layout->glass_width) / 2;

    put_form(page, "<rect class=\"glass\" x=\"%zu\" y=\"%d\" width=\"%zu\" height=\"%zu\" rx=\"6\"/>\n", left, MARGIN,
             layout->glass_width, layout->glass_height);
    for (size_t digit = 0; digit < layout->digits; digit++) {
        size_t x = left + GLASS_EDGE / 2 + (DIGIT_PITCH - DIGIT_WIDTH) / 2 + digit % DIGITS_IN_ROW * DIGIT_PITCH;
        size_t y = MARGIN + GLASS_EDGE / 2 + 8 + digit / DIGITS_IN_ROW * DIGIT_ROW;

        put_form(page, "<g transform=\"translate(%zu %zu) translate(5 0) skewX(-5)\">\n", x, y);
        for (size_t segment = 0; segment < SEGMENTS; segment++)
            draw_segment(page, book, picture, SEGMENTS * digit + segment);
        put_form(page, "</g>\n<text x=\"%zu\" y=\"%zu\">%zu\u2013%zu</text>\n", x + DIGIT_WIDTH / 2,
                 y + DIGIT_HEIGHT + 18, SEGMENTS * digit, SEGMENTS * digit + SEGMENTS - 1);
    }
}

static void draw_lamps(struct page *page, const struct book *book, const struct picture *picture,
                       const struct layout *layout)
{
    const size_t first = SEGMENTS * layout->digits;
    const size_t left = (layout->width - layout->lamps_in_row * LAMP_PITCH) / 2;

    for (size_t lamp = 0; lamp < layout->lamps; lamp++) {
        size_t x = left + LAMP_PITCH / 2 + lamp % layout->lamps_in_row * LAMP_PITCH;
        size_t y = MARGIN + layout->glass_height + LAMP_ROW / 2 - 2 + lamp / layout->lamps_in_row * LAMP_ROW;

        put_form(page, "<g transform=\"translate(%zu %zu)\">", x, y);
        draw_lamp(page, book, picture, first + lamp);
        put_form(page, "<text y=\"31\">%zu</text></g>\n", first + lamp);
    }
}

/* ---- The picture ---- */

/* For those who do not see it: which elements are lit. */
static void describe(struct page *page, const struct picture *picture, const struct layout *layout)
{
    size_t lit = 0;

    for (size_t element = 0; element < layout->elements; element++)
        lit += picture->at[element] != 0;
    if (lit == 0) {
        put_form(page, "All %zu elements are dark.", layout->elements);
        return;
    }
    put_form(page, "%zu of %zu elements lit:", lit, layout->elements);
    for (size_t element = 0; element < layout->elements; element++)
        if (picture->at[element]) {
            lit--;
            put_form(page, " %zu%s", element, lit > 0 ? "," : ".");
        }
}

void draw_svg(struct page *page, const struct book *book, const struct picture *picture, struct look look,
              const char *name, const char *title)
{
    const struct layout layout = layout_of((size_t)picture->count, look);

    put_form(page, "<svg xmlns=\"http://www.w3.org/2000/svg\" role=\"img\" aria-labelledby=\"%s-title %s-desc\" "
                   "viewBox=\"0 0 %zu %zu\" width=\"%zu\" height=\"%zu\">\n<title id=\"%s-title\">%s</title>\n"
                   "<desc id=\"%s-desc\">", name, name, layout.width, layout.height, layout.width, layout.height, name,
             title, name);
    describe(page, picture, &layout);
    put(page, "</desc>\n");
    draw_plate(page, &layout);
    if (layout.digits > 0)
        draw_digits(page, book, picture, &layout);
    draw_lamps(page, book, picture, &layout);
    put(page, "</svg>\n");
}
