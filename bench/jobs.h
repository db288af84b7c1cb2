/* A program of jobs, each done by the library (side 0) and mostly by plain C as well (side 1).
 *
 *   PROGRAM         the check, then a line a job for bench/all, its fields parted by tabs
 *   PROGRAM NAME    one job once, by the library and by the C (for counting instructions)
 *   PROGRAM check   only whether the library and the C leave and answer the same
 *
 * Needs clock_gettime: include it after defining _POSIX_C_SOURCE, before anything else.
 */
#ifndef TANDAWIRE_JOBS_H
#define TANDAWIRE_JOBS_H

#include <stdint.h>
#include <stdio.h>
#include <string.h>
#include <time.h>

enum { ROUNDS = 25, INPUTS = 8, TRIED = 63, ANSWER = 32 };

struct job {
    const char *name, *what;
    /* The functions whose instructions are the job's, parted by spaces; the C's is "-" where plain
     * C does not do the job. */
    const char *call, *c_call;
    /* Tables of common + ours and common + theirs elements; a filter's size where there is one. */
    uint32_t size, common, ours, theirs;
    /* The most instructions that the library may take, and what it should come to; 0 for none. */
    uint64_t limit, goal;
};

struct program {
    const char *name;
    const struct job *jobs;
    int number;
    /* How many inputs a job is timed on. */
    uint32_t inputs;
    int (*check)(void);
    /* Makes input n of a job; n goes up from 1. */
    void (*prepare)(const struct job *, uint32_t n);
    /* One call on it, and its nanoseconds; -1 if it did not do the whole job. */
    double (*time_of)(const struct job *, int side, uint32_t n);
};

/* What the last call answered, where that is worth a word. */
static char answer[ANSWER] = "-";

static double nanoseconds(struct timespec from, struct timespec to)
{
    return (double)(to.tv_sec - from.tv_sec) * 1e9 + (double)(to.tv_nsec - from.tv_nsec);
}

static int sides_of(const struct job *job)
{
    return strcmp(job->c_call, "-") == 0 ? 1 : 2;
}

/* A function within the library, as filter::peeling::peel, cannot be called, and so not timed. */
static int is_part(const struct job *job)
{
    return strstr(job->call, "::") != NULL;
}

static int best_of_rounds(const struct program *p, const struct job *job, uint32_t n,
                          double best[2])
{
    best[0] = best[1] = 1e18;
    for (int round = 0; round < ROUNDS; round++)
        for (int side = 0; side < sides_of(job); side++) {
            double again = p->time_of(job, side, n);
            if (again < 0)
                return 0;
            if (again < best[side])
                best[side] = again;
        }
    return 1;
}

static void print_time(double sum, uint32_t inputs, int is_known)
{
    if (is_known)
        printf("\t%.0f", sum / inputs);
    else
        printf("\t-");
}

/* The mean over several inputs of the best of some rounds, so that no side is timed on one path
 * learnt by heart. Inputs that are answered unlike the first are left out, and how many were
 * tried is told then. */
static int report(const struct program *p, const struct job *job)
{
    char first[ANSWER];
    double sum[2] = {0, 0}, best[2];
    uint32_t tried = 0, used = 0;
    while (used < p->inputs && tried < TRIED) {
        p->prepare(job, ++tried);
        if (!best_of_rounds(p, job, tried, best))
            return 0;
        if (tried == 1)
            memcpy(first, answer, sizeof first);
        if (strcmp(first, answer) != 0)
            continue;
        used++;
        sum[0] += best[0];
        sum[1] += best[1];
    }
    printf("%s\t%s\t%s", job->name, job->what, first);
    if (used < tried)
        printf(" %lu/%lu", (unsigned long)used, (unsigned long)tried);
    print_time(sum[0], used, !is_part(job));
    print_time(sum[1], used, !is_part(job) && sides_of(job) == 2);
    printf("\t%s\t%s\t%llu\t%llu\n", job->call, job->c_call, (unsigned long long)job->limit,
           (unsigned long long)job->goal);
    fflush(stdout);
    return 1;
}

static int run_once(const struct program *p, const struct job *job)
{
    p->prepare(job, 1);
    for (int side = 0; side < sides_of(job); side++)
        if (p->time_of(job, side, 1) < 0)
            return 0;
    return 1;
}

/* What main answers. */
static int run_program(const struct program *p, int argc, char **argv)
{
    const char *word = argc == 2 ? argv[1] : "";
    int one = -1, only_check = strcmp(word, "check") == 0;
    for (int i = 0; i < p->number; i++)
        if (strcmp(word, p->jobs[i].name) == 0)
            one = i;
    if (argc > 2 || (argc == 2 && one < 0 && !only_check)) {
        fprintf(stderr, "use: %s, %s check, or %s NAME\n", p->name, p->name, p->name);
        return 2;
    }
    if (one < 0 && !p->check()) {
        fprintf(stderr, "%s: the check failed\n", p->name);
        return 1;
    }
    for (int i = one < 0 ? 0 : one; !only_check && i < (one < 0 ? p->number : one + 1); i++)
        if (!(one < 0 ? report(p, &p->jobs[i]) : run_once(p, &p->jobs[i]))) {
            fprintf(stderr, "%s: %s was not done, or not alike\n", p->name, p->jobs[i].name);
            return 1;
        }
    return 0;
}

#endif
