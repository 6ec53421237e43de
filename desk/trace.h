/* A line for each event of a script, and the same as a value change dump. */
#ifndef DESK_TRACE_H
#define DESK_TRACE_H

#include "command.h"

/* The command desk trace. */
enum status work_trace(const struct command *command, int count, char **words);

#endif
