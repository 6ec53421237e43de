/* The demonstration of the example dispatcher. */
#ifndef DESK_DEMO_H
#define DESK_DEMO_H

#include "command.h"

/* The command desk demo. */
enum status work_demo(const struct command *command, int count, char **words);

#endif
