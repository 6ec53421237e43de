/* How many of a thing, in words. */
#include "plural.h"

const char *plural(uint64_t count)
{
    return count == 1 ? "" : "s";
}
