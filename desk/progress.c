/* What a command tells on a terminal while it works: written by a timer's signal, so that the work is not slowed and a
   call of the library, however long, is told of too. */
#define _DEFAULT_SOURCE
#include "progress.h"

#include <errno.h>
#include <signal.h>
#include <stdbool.h>
#include <sys/time.h>
#include <time.h>
#include <unistd.h>

enum { MICROSECONDS = 1000000, FIRST = MICROSECONDS, THEN = MICROSECONDS / 4, LINE_ROOM = 128 };

static const char *called;
static volatile uint64_t all_things, things_done;
static volatile sig_atomic_t told; /* something stands on the terminal */

/* When the command began, or the debugger's line. */
static struct timespec began;
static bool has_begun;

static uint64_t microseconds_since(void)
{
    struct timespec now;

    clock_gettime(CLOCK_MONOTONIC, &now);
    return (uint64_t)((now.tv_sec - began.tv_sec) * MICROSECONDS + (now.tv_nsec - began.tv_nsec) / 1000);
}

void start_clock(void)
{
    clock_gettime(CLOCK_MONOTONIC, &began);
    has_begun = true;
}

/* Numbers and texts put into a line by hand, since a signal's work may not print. */
struct line {
    char text[LINE_ROOM];
    size_t length;
};

static void add_text(struct line *line, const char *text)
{
    while (*text != '\0' && line->length < LINE_ROOM)
        line->text[line->length++] = *text++;
}

static void add_number(struct line *line, uint64_t number)
{
    char digits[24];
    size_t at = sizeof digits;

    digits[--at] = '\0';
    do
        digits[--at] = (char)('0' + number % 10);
    while ((number /= 10) > 0);
    add_text(line, digits + at);
}

static void put(const struct line *line)
{
    if (write(STDERR_FILENO, line->text, line->length) < 0)
        told = 0; /* a terminal that is gone takes nothing more */
}

/* The line begins at its front and ends in blanks, so that the next one covers it. */
static void tell(int signal)
{
    struct line line = {.length = 0};
    int kept = errno;

    (void)signal;
    add_text(&line, "\rdesk: ");
    if (all_things > 0) {
        add_number(&line, things_done);
        add_text(&line, " of ");
        add_number(&line, all_things);
        add_text(&line, " ");
    }
    add_text(&line, called);
    add_text(&line, ", ");
    add_number(&line, microseconds_since() / MICROSECONDS);
    add_text(&line, " s   ");
    told = 1;
    put(&line);
    errno = kept;
}

static void set_timer(long first, long then)
{
    const struct itimerval timer = {{0, then}, {first / MICROSECONDS, first % MICROSECONDS}};

    setitimer(ITIMER_REAL, &timer, NULL);
}

void begin_progress(const char *what, uint64_t all)
{
    const struct sigaction action = {.sa_handler = tell, .sa_flags = SA_RESTART};
    uint64_t since;

    if (!has_begun)
        start_clock();
    called = what;
    all_things = all;
    things_done = 0;
    if (!isatty(STDERR_FILENO) || sigaction(SIGALRM, &action, NULL) != 0)
        return;
    since = microseconds_since();
    set_timer(since < FIRST ? (long)(FIRST - since) : THEN, THEN);
}

void progress_at(uint64_t done)
{
    things_done = done;
}

void clear_progress(void)
{
    static const struct line cleared = {"\r\033[K", 4};

    if (told)
        put(&cleared);
}

void end_progress(void)
{
    set_timer(0, 0);
    clear_progress();
    told = 0;
}
