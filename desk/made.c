/* What the desk was made of: the Makefile says it, in this object alone, which is made anew where it changes. */
#include "made.h"

#ifndef COMMIT
#define COMMIT "unknown"
#endif

const char made_of[] = COMMIT;
