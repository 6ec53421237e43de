/* Work that may fail: what ends it, how far back, and the memory that it took. */
#ifndef DESK_ATTEMPT_H
#define DESK_ATTEMPT_H

#include "refusal.h"

#include <stdbool.h>
#include <stddef.h>

/* Does some work for which fail() ends the work and not the command. Answers whether it came to its end; where it did
   not, the memory that it took is given back. */
bool attempt(void (*work)(void *with), void *with);

/* Ends the innermost attempt, or, where there is none, the command with the status of wrong use. */
_Noreturn void give_up(void);

/* Does a whole command's work, and answers how it ended: what the work answers, or what end_command says from anywhere
   in it. */
enum status whole_command(enum status (*work)(void *with), void *with);

/* Ends the command, where there is none the program. */
_Noreturn void end_command(enum status status);

/* Memory for so many things, all 0, or the work fails. It is freed by give_back alone, which also takes NULL. */
void *take_memory(size_t count, size_t size);
void *more_memory(void *memory, size_t bytes); /* the same bytes in so much room, what is new not set */
void give_back(void *memory);

#endif
