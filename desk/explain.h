/* Why a text is no listing, in words. What is a listing, and which line is the first that is not as it must be, the
   library has decided; here it is only told what of that line no listing has. */
#ifndef DESK_EXPLAIN_H
#define DESK_EXPLAIN_H

#include "files.h"

extern const char listing_help[];

/* Says on standard error, behind refusal 26, which text stands after so many good lines, and what is wrong with it. */
void explain_listing(struct bytes text, uint64_t good);

#endif
