/* What a command tells on a terminal while it works for more than a second. Nothing is told where standard error is no
   terminal. */
#ifndef DESK_PROGRESS_H
#define DESK_PROGRESS_H

#include <stdint.h>

/* Begins work on so many things, and says what they are, as "events done"; how many are done is then told from time to
   time until the work ends. Of work that is one call of the library there are 0 things, and only the time is told. */
void begin_progress(const char *what, uint64_t all);
void progress_at(uint64_t done);
void end_progress(void);

/* The second that passes before anything is told, and those that are told, count from here, however many works follow
   each other; where it is never said, from the first work. */
void start_clock(void);

/* Takes away what is told, before something else is shown while the work goes on. */
void clear_progress(void);

#endif
