/* What keeps a command from its work, in words: a refusal of the library, wrong use, a fault. */
#ifndef DESK_REFUSAL_H
#define DESK_REFUSAL_H

#include <stdbool.h>
#include <stdint.h>
#include <stdio.h>

/* How a command ends. */
enum status { DONE = 0, REFUSED = 1, WRONG_USE = 2, FAULT = 3 };

/* A refusal's number, its value and what they mean, as a part of a line. */
void describe_refusal(FILE *to, uint32_t number, uint64_t value);

/* Says on standard error what was asked of which file, and the refusal. */
void say_refusal(const char *what, uint32_t number, uint64_t value);

/* Says what is wrong and ends the innermost attempt (attempt.h), or the command with WRONG_USE. */
_Noreturn void fail(const char *format, ...) __attribute__((format(printf, 1, 2)));

/* Says what only a mistake in the library or in this command can bring about. Answers false: not without fault. How many
   were said is counted. */
extern unsigned long faults_said;
bool say_fault(const char *format, ...) __attribute__((format(printf, 1, 2)));

/* Asks for a report, after the faults were said. Answers false too. */
bool ask_report(void);

/* Says a fault after which the command cannot go on, asks for a report and ends the command with FAULT. */
_Noreturn void end_in_fault(const char *format, ...) __attribute__((format(printf, 1, 2)));

#endif
