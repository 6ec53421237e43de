/* A picture as SVG within a page. */
#ifndef DESK_SVG_H
#define DESK_SVG_H

#include "page.h"
#include "panel.h"

/* Draws what the panel shows: its first 7 x digits elements as seven-segment digits, each in the order a to g, the
   others as lamps, so many in a row. A lit element is filled and has a strong edge, a dark one is hollow with a broken
   edge, and a lit lamp has rays besides, so that no colour is needed to tell them apart. Each says by itself which it
   is. `name` begins the ids of its parts, `title` is what is read aloud for it; both are the desk's own words. */
void draw_svg(struct page *page, const struct book *book, const struct picture *picture, struct look look,
              const char *name, const char *title);

#endif
