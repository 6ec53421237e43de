/* Ctrl-C in a session at a terminal: it breaks off what is under way, and does not end the command. */
#ifndef DESK_INTERRUPT_H
#define DESK_INTERRUPT_H

#include <stdbool.h>

/* From here on ctrl-C is noted; and from there on it does what it did before. */
void take_ctrl_c(void);
void leave_ctrl_c(void);

/* Whether ctrl-C was typed since it was last forgotten. */
bool break_asked(void);
void forget_break(void);

/* While ctrl-C is held back, it is noted in await_input alone, so that none is lost between a prompt and the wait for
   what is typed there. */
void hold_ctrl_c(bool hold);

/* Waits until something can be read from standard input. Answers false where ctrl-C came first. */
bool await_input(void);

#endif
