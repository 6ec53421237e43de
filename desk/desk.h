/* The desk command. */
#ifndef DESK_DESK_H
#define DESK_DESK_H

#include "refusal.h"

/* Does what a command line asks, and answers how it ended. */
enum status desk(int argc, char **argv);

/* As what the desk was called, the first word of its command line. */
extern const char *desk_called;

#endif
