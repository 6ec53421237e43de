/* The desk's manual page. */
#ifndef DESK_MANUAL_H
#define DESK_MANUAL_H

#include "command.h"

/* Writes the page desk(1) to standard output: of each command its usage and its help, and then what is said of all. */
void print_manual(const struct command *commands, int count, const char *closing);

#endif
