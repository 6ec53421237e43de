/* How many of a thing, in words. */
#ifndef DESK_PLURAL_H
#define DESK_PLURAL_H

#include <stdint.h>

/* What a noun ends in: nothing for one, else s. */
const char *plural(uint64_t count);

#endif
