/* The tables: what is printed of the times. */
#include "table.h"

#include <stdio.h>
#include <stdlib.h>
#include <string.h>

static int by_size(const void *left, const void *right)
{
    double a = *(const double *)left, b = *(const double *)right;

    return (a > b) - (a < b);
}

static double speed(const struct times *times, int at)
{
    double sorted[TURNS];

    memcpy(sorted, times->of[at], sizeof sorted);
    qsort(sorted, TURNS, sizeof sorted[0], by_size);
    return 1 / sorted[0];
}

static double median_ratio(const double over[TURNS], const double under[TURNS])
{
    double ratios[TURNS];

    for (int turn = 0; turn < TURNS; turn++)
        ratios[turn] = over[turn] / under[turn];
    qsort(ratios, TURNS, sizeof ratios[0], by_size);
    return ratios[TURNS / 2];
}

/* How many times as fast as that one. */
static double beside(const struct times *times, int at)
{
    return median_ratio(times->of[at], times->of[GALHOVEIA]);
}

static void heading_of_before(int taking_part)
{
    if (taking_part > BEFORE)
        printf(" %14s %10s %8s", "before", "now/before", "median");
    printf("\n");
}

static void now_to_before(const struct times *times)
{
    printf(" %10.2f %8.2f", speed(times, GALHOVEIA) / speed(times, BEFORE), beside(times, BEFORE));
}

static void end_of_line(void)
{
    printf("\n");
    fflush(stdout);
}

static void line_of_before(const struct times *times)
{
    if (times->of[BEFORE][0] != 0) {
        printf(" %14.0f", speed(times, BEFORE));
        now_to_before(times);
    }
    end_of_line();
}

void heading(int taking_part)
{
    printf("%-42s %14s %14s %8s", "load (per second)", "galhoveia", "second", "ratio");
    heading_of_before(taking_part);
}

void line(const char *what, const struct times *times)
{
    printf("%-42s %14.0f %14.0f %8.2f", what, speed(times, GALHOVEIA), speed(times, SECOND), beside(times, SECOND));
    line_of_before(times);
}

void heading_of_two(int taking_part)
{
    printf("%-42s %14s %14s %8s %14s %8s", "two cars (entries per second)", "galhoveia", "two runs", "ratio", "second",
           "ratio");
    heading_of_before(taking_part);
}

void line_of_two(const char *what, const struct times *times)
{
    printf("%-42s %14.0f %14.0f %8.2f %14.0f %8.2f", what, speed(times, GALHOVEIA), speed(times, TWO_RUNS),
           beside(times, TWO_RUNS), speed(times, SECOND), beside(times, SECOND));
    line_of_before(times);
}

static double microseconds(const struct times *times, int at)
{
    return 1e6 / speed(times, at);
}

void heading_of_xref(int taking_part)
{
    printf("%-32s %-9s %14s %9s %8s %8s %8s %14s %8s", "cross-reference (microseconds)", "call", "galhoveia",
           "held to", "best", "median", "goal", "second", "ratio");
    heading_of_before(taking_part);
}

/* A call, the one that its time is held against, and how many times as long it may take. */
static const struct {
    const char *name;
    int held_to, most;
} calls[XREF_CALLS] = {
    [LIST] = {.name = "list"}, [BUILD] = {"build", LIST, 2}, [ANSWER] = {"answer", LIST, 1},
    [REPLACE] = {"replace", BUILD, 1},
};

static void line_of_call(const char *what, const struct times all[XREF_CALLS], int call)
{
    const struct times *times = &all[call], *held = &all[calls[call].held_to];

    printf("%-32s %-9s %14.1f %9s %8.2f %8.2f %8d %14.1f %8.2f", what, calls[call].name,
           microseconds(times, GALHOVEIA), calls[calls[call].held_to].name,
           microseconds(times, GALHOVEIA) / microseconds(held, GALHOVEIA),
           median_ratio(times->of[GALHOVEIA], held->of[GALHOVEIA]), calls[call].most, microseconds(times, SECOND),
           beside(times, SECOND));
    if (times->of[BEFORE][0] != 0) {
        printf(" %14.1f", microseconds(times, BEFORE));
        now_to_before(times);
    }
    end_of_line();
}

void lines_of_xref(const char *what, const struct times times[XREF_CALLS])
{
    printf("%-32s %-9s %14.1f\n", what, calls[LIST].name, microseconds(&times[LIST], GALHOVEIA));
    for (int call = BUILD; call < XREF_CALLS; call++)
        line_of_call(what, times, call);
}

void heading_in_microseconds(void)
{
    printf("%-42s %14s %14s\n", "listings (microseconds a call)", "galhoveia", "second");
}

void line_in_microseconds(const char *what, const struct times *times)
{
    printf("%-42s %14.1f %14.1f\n", what, microseconds(times, GALHOVEIA), microseconds(times, SECOND));
}
