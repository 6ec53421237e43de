/* The report: a page on a book and on a script's run over it, for the lift inspector to take along. */
#ifndef DESK_REPORT_H
#define DESK_REPORT_H

#include "command.h"

/* The command desk report. */
enum status work_report(const struct command *command, int count, char **words);

#endif
