/* Bad input in bulk: fuzz EXAMPLES [--inputs N | --seconds N] [--seed N] [--unit N]. Prints what came of each kind of
   input, and last 'N passed, M failed', an input each. Workers share the units; one that meets a finding, or does not
   get on, is ended and its unit told, which --unit does again by itself, with all that the desk says. */
#define _XOPEN_SOURCE 700
#define _DEFAULT_SOURCE
#include "fuzz.h"

#include "../desk/refusal.h"
#include "../desk/texts.h"

#include <limits.h>
#include <signal.h>
#include <stdarg.h>
#include <stdio.h>
#include <stdlib.h>
#include <string.h>
#include <sys/mman.h>
#include <sys/wait.h>
#include <time.h>
#include <unistd.h>

enum { KINDS_MOST = 32, WORKERS_MOST = 8, STUCK_SECONDS = 120, LOOK_MICROSECONDS = 50000 };

static struct kind_of_input kinds[KINDS_MOST];
static unsigned kind_count, weights;

/* What workers tell, in memory that all share. */
struct worker {
    pid_t process;
    volatile uint64_t unit;      /* the one at work */
    volatile uint64_t inputs;    /* all that are done */
    struct outcome outcome[KINDS_MOST];
    double seconds[KINDS_MOST];
    char folder[32];
};

static struct worker *workers;
static unsigned worker_count;
static uint64_t first_seed = 6754, units_end = 10000;
static double ends_at; /* 0 where the units end it */
static bool aloud;      /* what the desk says is seen */
static FILE *report;

static double now(void)
{
    struct timespec time;

    clock_gettime(CLOCK_MONOTONIC, &time);
    return (double)time.tv_sec + (double)time.tv_nsec / 1e9;
}

_Noreturn void finding(const char *format, ...)
{
    va_list arguments;

    fprintf(report, "FAILED ");
    va_start(arguments, format);
    vfprintf(report, format, arguments);
    va_end(arguments);
    fprintf(report, "\n");
    fflush(report);
    _exit(1);
}

/* ---- Units ---- */

static void take_kinds(const struct kind_of_input *from)
{
    for (; from->name != NULL; from++) {
        kinds[kind_count++] = *from;
        weights += from->weight;
    }
}

static unsigned kind_of_unit(uint64_t unit)
{
    unsigned at = (unsigned)(unit % weights), kind = 0;

    while (at >= kinds[kind].weight)
        at -= kinds[kind++].weight;
    return kind;
}

static void do_unit(struct worker *worker, uint64_t unit)
{
    unsigned kind = kind_of_unit(unit);
    double began = now();

    worker->unit = unit;
    seed_random(first_seed + unit * UINT64_C(0x9E3779B97F4A7C15));
    for (int warm = 0; warm < 8; warm++)
        any_64();
    if (kinds[kind].begin != NULL)
        kinds[kind].begin();
    for (int at = 0; at < UNIT_INPUTS; at++) {
        kinds[kind].input(&worker->outcome[kind]);
        if (faults_said > 0)
            finding("a fault was said");
        worker->inputs++;
    }
    worker->seconds[kind] += now() - began;
}

/* ---- Workers ---- */

static char examples[PATH_MAX], program[PATH_MAX];

/* A folder for a worker, in memory where the system has such, since every file that is written is synchronized. */
static void make_folder(struct worker *worker)
{
    strcpy(worker->folder, access("/dev/shm", W_OK) == 0 ? "/dev/shm/fuzz-XXXXXX" : "/tmp/fuzz-XXXXXX");
    if (mkdtemp(worker->folder) == NULL)
        finding("there is no folder to work in");
}

static void remove_folder(const struct worker *worker)
{
    char command[sizeof worker->folder + sizeof "rm -rf "];

    snprintf(command, sizeof command, "rm -rf %s", worker->folder);
    if (system(command) != 0)
        fprintf(report, "%s is left behind\n", worker->folder);
}

static void prepare(const struct worker *worker)
{
    if (chdir(worker->folder) != 0)
        finding("the folder %s cannot be entered", worker->folder);
    prepare_texts(examples);
    prepare_files();
    prepare_lines(examples);
}

static void start(struct worker *worker, uint64_t first)
{
    pid_t process;

    make_folder(worker);
    fflush(NULL);
    process = fork();
    if (process < 0)
        finding("no process for a worker");
    if (process > 0) {
        worker->process = process;
        return;
    }
    if (freopen("/dev/null", "r", stdin) == NULL
        || (!aloud && (freopen("/dev/null", "w", stdout) == NULL || freopen("/dev/null", "w", stderr) == NULL)))
        finding("no /dev/null");
    prepare(worker);
    for (uint64_t unit = first; ends_at > 0 ? now() < ends_at : unit < units_end; unit += worker_count)
        do_unit(worker, unit);
    _exit(0);
}

/* Does a unit again, with what is said at its end: the sanitizers' words among it. */
static void show_unit(uint64_t unit)
{
    char command[2 * PATH_MAX + 128];

    snprintf(command, sizeof command, "'%s' '%s' --seed %llu --unit %llu 2>&1 | tail -n 40", program, examples,
             (unsigned long long)first_seed, (unsigned long long)unit);
    fprintf(report, "FAILED in a unit that this does again: %s\n", command);
    fflush(report);
    if (system(command) != 0)
        fprintf(report, "it could not be done again\n");
}

/* Waits for a worker's end, and ends it where it does not get on. Answers whether it ended well. */
static bool ended_well(struct worker *worker)
{
    uint64_t inputs = 0;
    double moved = now();
    bool stuck = false;
    int status;

    while (waitpid(worker->process, &status, WNOHANG) == 0) {
        if (worker->inputs != inputs) {
            inputs = worker->inputs;
            moved = now();
        }
        stuck = now() - moved > STUCK_SECONDS;
        if (stuck)
            kill(worker->process, SIGKILL);
        usleep(LOOK_MICROSECONDS);
    }
    if (WIFEXITED(status) && WEXITSTATUS(status) == 0)
        return true;
    if (stuck)
        fprintf(report, "FAILED unit %llu: an input has taken more than %d s\n", (unsigned long long)worker->unit,
                STUCK_SECONDS);
    else if (!aloud)
        show_unit(worker->unit);
    return false;
}

/* ---- All of them ---- */

/* Answers whether some inputs of the kind were taken and some refused, as it must be: else nothing was tried. */
static bool tell_kind(unsigned kind)
{
    struct outcome all = {0, 0};
    double seconds = 0;

    for (unsigned at = 0; at < worker_count; at++) {
        all.taken += workers[at].outcome[kind].taken;
        all.refused += workers[at].outcome[kind].refused;
        seconds += workers[at].seconds[kind];
    }
    fprintf(report, "  %-20s %9lu taken, %9lu refused, %6.1f s\n", kinds[kind].name, all.taken, all.refused, seconds);
    return all.taken > 0 && (all.refused > 0) == !kinds[kind].all_taken;
}

static int do_units(uint64_t first)
{
    unsigned long passed = 0, failed = 0;

    workers = mmap(NULL, WORKERS_MOST * sizeof *workers, PROT_READ | PROT_WRITE, MAP_SHARED | MAP_ANONYMOUS, -1, 0);
    if (workers == MAP_FAILED)
        finding("no memory to share");
    for (unsigned at = 0; at < worker_count; at++)
        start(&workers[at], first + at);
    for (unsigned at = 0; at < worker_count; at++) {
        failed += !ended_well(&workers[at]);
        remove_folder(&workers[at]);
        passed += workers[at].inputs;
    }
    for (unsigned kind = 0; kind < kind_count && !aloud; kind++)
        if (!tell_kind(kind)) {
            fprintf(report, "FAILED %s: none was taken, or none refused\n", kinds[kind].name);
            failed++;
        }
    fprintf(report, "%lu passed, %lu failed\n", passed, failed);
    return failed == 0 ? EXIT_SUCCESS : EXIT_FAILURE;
}

static uint64_t number_after(const char *option, const char *text)
{
    unsigned long long number;

    if (text == NULL || !number_from(text, strlen(text), UINT64_MAX / 2, &number))
        finding("a number is due after %s", option);
    return number;
}

int main(int argc, char **argv)
{
    long processors = sysconf(_SC_NPROCESSORS_ONLN);
    uint64_t first = 0;

    report = fdopen(dup(STDOUT_FILENO), "w");
    worker_count = processors < 1 ? 1 : processors > WORKERS_MOST ? WORKERS_MOST : (unsigned)processors;
    if (argc < 2 || realpath(argv[1], examples) == NULL || realpath(argv[0], program) == NULL)
        finding("usage: fuzz EXAMPLES [--inputs N | --seconds N] [--seed N] [--unit N]");
    for (int at = 2; at < argc; at += 2) {
        uint64_t number = number_after(argv[at], argv[at + 1]);

        if (strcmp(argv[at], "--inputs") == 0)
            units_end = number / UNIT_INPUTS;
        else if (strcmp(argv[at], "--seconds") == 0)
            ends_at = now() + (double)number;
        else if (strcmp(argv[at], "--seed") == 0)
            first_seed = number;
        else if (strcmp(argv[at], "--unit") == 0) {
            first = number;
            units_end = number + 1;
            worker_count = 1;
            aloud = true;
        } else
            finding("no such option: %s", argv[at]);
    }
    take_kinds(text_kinds);
    take_kinds(file_kinds);
    take_kinds(line_kinds);
    return do_units(first);
}
