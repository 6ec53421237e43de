/* One word of a book's program replaced, and which cells have other writers then. */
#ifndef DESK_PATCH_H
#define DESK_PATCH_H

#include "command.h"

/* The command desk patch. */
enum status work_patch(const struct command *command, int count, char **words);

#endif
