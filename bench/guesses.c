/* How good the library's estimates are, for random tables.
 *
 *   guesses                   the table, 1,000 trials a line
 *   guesses TRIALS            the same with so many
 *   guesses unknown TRIALS    how often nothing is known, and what to do then
 *
 * A line is a difference, all of it ours or half and half: per cent of estimates that are exact,
 * percentiles of estimate / difference, how many are unknown, and per cent of readings that are
 * complete at c times the estimate, as the nearest odd size within 37 to 4,095, salt 0. What is
 * unknown has no number, so it counts in no column but its own. The seed is fixed. Common elements
 * cancel out; there are so many that no table passes 4,096.
 *
 * With `unknown` a line is a pair of tables, mostly with little in common: in how many of 100 times
 * as many trials the difference was unknown; and, for each size that a sender may begin with who
 * knows nothing, per cent of sessions that finish, the bytes that they send besides elements, and
 * their swaps.
 */
#include <stdint.h>
#include <stdio.h>
#include <stdlib.h>
#include <string.h>

#include "../include/tandawire.h"
#include "ends.h"
#include "tables.h"

enum { LEAST = 37, MOST = 4096, PLACES = TANDAWIRE_ESTIMATOR_PLACES, COMMON = 96, TRIALS = 1000 };

static const size_t differences[] = {0, 10, 30, 50, 100, 200, 500, 1000, 2000, 4000};
static const unsigned percentiles[] = {1, 10, 50, 90, 99};
static const uint64_t factors[] = {2, 3, 4};
enum {
    DIFFERENCES = sizeof differences / sizeof differences[0],
    PERCENTILES = sizeof percentiles / sizeof percentiles[0],
    FACTORS = sizeof factors / sizeof factors[0],
};

/* What a call should not have answered: a refusal, a complete reading of another length, or a
 * difference that is known to be 0 where there is one. */
static unsigned wrong;

static tandawire_estimation estimate(void)
{
    static tandawire_estimator a, b;
    if (tandawire_estimator_make(&a, tables.ours, tables.ours_length) != 0 ||
        tandawire_estimator_make(&b, tables.theirs, tables.theirs_length) != 0)
        wrong++;
    tandawire_estimation e = tandawire_estimator_compare(&a, &b);
    wrong += e.refusal != 0;
    return e;
}

static int reads_complete(uint32_t size, size_t ours, size_t theirs)
{
    static tandawire_filter f;
    static tandawire_lists lists;
    if (tandawire_filter_make(&f, tables.theirs, tables.theirs_length, size, 0) != 0)
        wrong++;
    tandawire_reading r = tandawire_filter_read(&f, &lists, tables.ours, tables.ours_length);
    wrong += (r.refusal != 0 && r.refusal != TANDAWIRE_REFUSED_FALSE) ||
             (r.complete && (r.ours != ours || r.theirs != theirs));
    return r.refusal == 0 && r.complete;
}

static uint32_t size_for(uint64_t wanted)
{
    return wanted < LEAST ? LEAST : wanted >= MOST ? MOST - 1 : (uint32_t)wanted | 1;
}

static int compare(const void *a, const void *b)
{
    uint64_t x = *(const uint64_t *)a, y = *(const uint64_t *)b;
    return (x > y) - (x < y);
}

/* The least estimate such that at least so many per cent are not above it. */
static uint64_t percentile(const uint64_t *ascending, unsigned number, unsigned per_cent)
{
    return ascending[((uint64_t)number * per_cent + 99) / 100 - 1];
}

/* Adds 1 for each factor at which the tables' reading is complete. */
static void read_at_factors(uint64_t estimate, size_t ours, size_t theirs, unsigned complete[FACTORS])
{
    /* Sizes do not fall with the factor, so equal ones are neighbours. */
    uint32_t before = 0;
    for (int f = 0, end = 0; f < FACTORS; f++) {
        uint32_t size = size_for(factors[f] * estimate);
        if (size != before)
            end = reads_complete(size, ours, theirs);
        complete[f] += (unsigned)end;
        before = size;
    }
}

static void report(size_t ours, size_t theirs, uint64_t *estimates, unsigned trials)
{
    size_t d = ours + theirs;
    unsigned exact = 0, known = 0, complete[FACTORS] = {0};
    for (unsigned trial = 0; trial < trials; trial++) {
        make(&tables, COMMON, ours, theirs);
        tandawire_estimation e = estimate();
        if (!e.known)
            continue;
        estimates[known++] = e.estimate;
        exact += e.estimate == d;
        wrong += (e.estimate == 0) != (d == 0);
        read_at_factors(e.estimate, ours, theirs, complete);
    }
    qsort(estimates, known, sizeof estimates[0], compare);
    printf("%6zu %6zu %8.1f ", ours, theirs, 100.0 * exact / known);
    for (int p = 0; p < PERCENTILES; p++)
        if (d > 0 && known > 0)
            printf(" %6.2f", (double)percentile(estimates, known, percentiles[p]) / (double)d);
        else
            printf(" %6s", "-");
    printf(" %8u ", trials - known);
    for (int f = 0; f < FACTORS; f++)
        printf(" %6.1f", 100.0 * complete[f] / known);
    putchar('\n');
    fflush(stdout);
}

static void report_all(unsigned trials, uint64_t *estimates)
{
    printf("%u trials a line, %d common elements\n\n", trials, COMMON);
    printf("%6s %6s %8s  %34s %8s  %20s\n", "", "", "exact,", "estimate / d, percentiles",
           "unknown,", "complete, %, at c =");
    printf("%6s %6s %8s ", "ours", "theirs", "%");
    for (int p = 0; p < PERCENTILES; p++)
        printf(" %6u", percentiles[p]);
    printf(" %8s ", "trials");
    for (int f = 0; f < FACTORS; f++)
        printf(" %6u", (unsigned)factors[f]);
    putchar('\n');
    for (int i = 0; i < DIFFERENCES; i++) {
        report(differences[i], 0, estimates, trials);
        if (differences[i] > 0)
            report(differences[i] - differences[i] / 2, differences[i] / 2, estimates, trials);
    }
}

/* ---- Where nothing is known ---- */

/* Tables with nothing in common, with a little, and with much. */
static const size_t pairs[][3] = {
    {0, 5, 5},     {0, 10, 10},     {0, 30, 30},   {0, 100, 100},   {0, 100, 10},  {0, 300, 300},
    {0, 500, 500}, {0, 1000, 100},  {0, 700, 700}, {0, 1000, 1000}, {20, 400, 400},
    {100, 100, 100}, {1000, 10, 10}, {2000, 50, 50}, {3000, 500, 500},
};
enum { PAIRS = sizeof pairs / sizeof pairs[0], STARTS = 4 };

/* Sessions begun at a size, on the same tables for each size. */
static void report_start(const size_t pair[3], uint32_t size, unsigned trials)
{
    unsigned finished = 0, swaps = 0;
    double bytes = 0;
    state = SEED;
    for (unsigned trial = 0; trial < trials; trial++) {
        make(&tables, pair[0], pair[1], pair[2]);
        finished += (unsigned)run(size);
        swaps += ends[RECEIVER].numbers.swaps + ends[SENDER].numbers.swaps;
        bytes += (double)(wire() - taken.elements * (TANDAWIRE_MESSAGE_HEAD + CONTENT));
    }
    printf("  %4u: %5.1f %8.0f %5.2f", size, 100.0 * finished / trials, bytes / trials,
           (double)swaps / trials);
}

static void report_unknown(unsigned trials)
{
    printf("%u trials a line; unknown of %u. Then for each size to begin with: finished in %%, bytes besides "
           "elements, swaps\n\n%6s %6s %6s %8s  37, 2 and 3 times both tables, 4,093\n", trials, 100 * trials,
           "common", "ours", "theirs", "unknown");
    for (int i = 0; i < PAIRS; i++) {
        const size_t *pair = pairs[i], both = 2 * pair[0] + pair[1] + pair[2];
        const uint32_t starts[STARTS] = {LEAST, tandawire_size_for(tandawire_known(both), 2),
                                         tandawire_size_for(tandawire_known(both), 3), 4093};
        unsigned unknown = 0;
        state = SEED;
        for (unsigned trial = 0; trial < 100 * trials; trial++) {
            make(&tables, pair[0], pair[1], pair[2]);
            unknown += !estimate().known;
        }
        printf("%6zu %6zu %6zu %8u", pair[0], pair[1], pair[2], unknown);
        for (int s = 0; s < STARTS; s++)
            report_start(pair, starts[s], trials);
        putchar('\n');
        fflush(stdout);
    }
}

int main(int argc, char **argv)
{
    int unknown = argc == 3 && strcmp(argv[1], "unknown") == 0;
    unsigned trials = argc == 1 ? TRIALS : (unsigned)strtoul(argv[argc - 1], NULL, 10);
    uint64_t *estimates = (argc > 2 && !unknown) || trials == 0 ? NULL : calloc(trials, sizeof *estimates);
    if (estimates == NULL) {
        fputs("use: guesses, guesses TRIALS, or guesses unknown TRIALS\n", stderr);
        return 2;
    }
    if (unknown)
        report_unknown(trials);
    else
        report_all(trials, estimates);
    printf("\nrefused otherwise, complete with lists of another length, or known to be 0 and not: %u\n", wrong);
    free(estimates);
    return wrong != 0;
}
