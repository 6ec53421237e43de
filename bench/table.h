/* The tables. Speeds are those of the best turn. A ratio of 1 means as fast as the second emulator, 0.25 a quarter of
   its speed; it is the median of the ratios taken turn by turn, of times that lie next to each other, since the
   machine's own speed changes from turn to turn. Where an earlier galhoveia takes part, the last two columns are the
   speed now over the speed before, of the best turns and as such a median: what the processor does undisturbed, and what
   it mostly does. */
#ifndef BENCH_TABLE_H
#define BENCH_TABLE_H

#include "sides.h"

enum { TURNS = 5 * OFFSETS };

/* What stands beside the sides where two cars are run: galhoveia's own run of each of them alone. */
enum { TWO_RUNS = SIDES_MOST, TIMED_MOST };

/* What each took in each turn; 0 where it took no part. */
struct times {
    double of[TIMED_MOST][TURNS];
};

void heading(int taking_part);
void line(const char *what, const struct times *times);

/* The first ratio is that to two runs, the second that to the second emulator. */
void heading_of_two(int taking_part);
void line_of_two(const char *what, const struct times *times);

/* The calls of the cross-reference, and the list that they are held against. */
enum { LIST, BUILD, ANSWER, REPLACE, XREF_CALLS };

/* In microseconds. Here a ratio to galhoveia's own list or build is one of times, so that 2 means twice as long: of the
   best turns, then the median; the goal is the most that it may be. */
void heading_of_xref(int taking_part);
void lines_of_xref(const char *what, const struct times times[XREF_CALLS]);

void heading_in_microseconds(void);
void line_in_microseconds(const char *what, const struct times *times);

#endif
