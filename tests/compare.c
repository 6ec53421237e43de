/* Compares galhoveia with the second emulator over the C boundary: answers, values, and every lent byte. Two parts, so
   that they can run side by side: `calls` has every word, refusal, panel, list, listing and cross-reference, `runs` the
   random events, the quiet stretches, what single steps change, every edge of a port's pins, DAA and DAS on every value
   of a cell, and two cars over one program. Prints its progress and, as its last line, how many comparisons passed and
   failed. */
#include "compare.h"
#include "support.h"

#include <inttypes.h>
#include <stdio.h>
#include <stdlib.h>
#include <string.h>
#include <time.h>

/* The refusals that each call can answer, 0 (done) among them (01, What comes back; the header). */
static const struct {
    enum call call;
    int numbers[12]; /* ended by -1 */
} can_answer[CALLS] = {
    {STEP, {0, 1, 2, 3, 4, 5, 6, -1}}, {RUN, {0, 1, 2, 3, 4, 5, 6, -1}}, {LIST, {0, 1, 7, 8, -1}},
    {LEVEL, {0, 2, 3, 9, 10, 11, -1}}, {FRESH, {0, 2, 4, 12, -1}},       {PICTURE, {0, 2, 3, 4, 7, 10, 11, -1}},
    {BOOK_READ, {0, 10, 11, -1}},      {BOOK_WRITE, {0, 7, 10, 11, -1}},     {LISTING_WRITE, {0, 1, 7, -1}},
    {LISTING_READ, {0, 7, 26, -1}},    {RUN_TWO, {0, 1, 2, 3, 4, 5, 7, 10, 11, 27, 28, -1}},
    {XREF_BUILD, {0, 1, 7, -1}},       {XREF_LIST, {0, 1, 7, 8, 29, -1}},    {XREF_REPLACE, {0, 1, 13, 29, -1}},
};

/* Every refusal in every call that can answer it, and no other. */
static void check_reached(void)
{
    progress("answers reached (0 is done):");
    for (int at = 0; at < CALLS; at++) {
        enum call call = can_answer[at].call;

        printf("  %-13s", call_name[call]);
        for (int number = 0, next = 0; number < REFUSALS; number++) {
            bool can = can_answer[at].numbers[next] == number;

            next += can;
            if (can)
                printf(" %d:%lu", number, reached[call][number]);
            check((reached[call][number] > 0) == can, "%s, answer %d: reached %lu times", call_name[call], number,
                  reached[call][number]);
        }
        printf("\n");
    }
}

static void usage(void)
{
    fprintf(stderr, "usage: compare calls --trials FILE [--machines N] [--cell-stride N] [--text-stride N]\n"
                    "                     [--xref-stride N] [--seed N]\n"
                    "       compare runs --book FILE [--events N] [--cell-stride N] [--seed N]\n");
    exit(2);
}

static uint64_t number_of(const char *text)
{
    char *end;
    uint64_t number = strtoull(text, &end, 0);

    if (end == text || *end != '\0' || number == 0)
        usage();
    return number;
}

static double seconds_since(const struct timespec *start)
{
    struct timespec now;

    timespec_get(&now, TIME_UTC);
    return (double)(now.tv_sec - start->tv_sec) + 1e-9 * (double)(now.tv_nsec - start->tv_nsec);
}

int main(int argc, char **argv)
{
    struct plan plan = {20000000, 8, 1, 1, 1, NULL, NULL};
    uint64_t seed = 6754;
    struct timespec start;
    bool calls = argc > 1 && strcmp(argv[1], "calls") == 0, runs = argc > 1 && strcmp(argv[1], "runs") == 0;

    for (int at = 2; at < argc; at += 2) {
        if (at + 1 == argc)
            usage();
        if (runs && strcmp(argv[at], "--events") == 0)
            plan.events = number_of(argv[at + 1]);
        else if (runs && strcmp(argv[at], "--book") == 0)
            plan.book = argv[at + 1];
        else if (calls && strcmp(argv[at], "--machines") == 0)
            plan.machines = (unsigned)number_of(argv[at + 1]);
        else if (strcmp(argv[at], "--cell-stride") == 0)
            plan.cell_stride = (unsigned)number_of(argv[at + 1]);
        else if (calls && strcmp(argv[at], "--text-stride") == 0)
            plan.text_stride = (unsigned)number_of(argv[at + 1]);
        else if (calls && strcmp(argv[at], "--xref-stride") == 0)
            plan.xref_stride = (unsigned)number_of(argv[at + 1]);
        else if (calls && strcmp(argv[at], "--trials") == 0)
            plan.trials = argv[at + 1];
        else if (strcmp(argv[at], "--seed") == 0)
            seed = number_of(argv[at + 1]);
        else
            usage();
    }
    if (calls ? plan.trials == NULL : !runs || plan.book == NULL)
        usage();
    timespec_get(&start, TIME_UTC);
    seed_random(seed);
    progress("%s: galhoveia against the second emulator, seed %" PRIu64, argv[1], seed);
    if (calls) {
        compare_words(&plan);
        progress("  (calls: %.1f s)", seconds_since(&start));
        compare_refusals();
        compare_panel();
        progress("  (calls: %.1f s)", seconds_since(&start));
        compare_lists(&plan);
        progress("  (calls: %.1f s)", seconds_since(&start));
        compare_listings(&plan);
        progress("  (calls: %.1f s)", seconds_since(&start));
        compare_xref(&plan);
        progress("  (calls: %.1f s)", seconds_since(&start));
        compare_two_refusals();
        check_reached();
    } else {
        compare_runs(&plan);
        compare_stretches(&plan);
        progress("  (runs: %.1f s)", seconds_since(&start));
        compare_changes(&plan);
        compare_pins();
        compare_decimal(&plan);
        progress("  (runs: %.1f s)", seconds_since(&start));
        compare_two(&plan);
    }
    progress("  (%s: %.1f s)", argv[1], seconds_since(&start));
    printf("%lu passed, %lu failed\n", passed, failed);
    if (fflush(stdout) != 0)
        return EXIT_FAILURE;
    return failed == 0 ? EXIT_SUCCESS : EXIT_FAILURE;
}
