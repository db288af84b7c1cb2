/* How often a reading by the library is complete, stuck or false, for random tables.
 *
 *   rates               the table, 4,000 trials a line
 *   rates TRIALS        the same with so many
 *   rates cap TRIALS    half and half at the largest sizes: a power of two, and three below it
 *
 * A line is a difference, all of it ours or half and half, and a filter of ratio times as many
 * buckets: once the nearest odd number, once the next power of two, each within 37 to 4,096.
 * All lines of a difference see the same tables. The seed is fixed; the salt goes from 0 to 63.
 */
#include <stdint.h>
#include <stdio.h>
#include <stdlib.h>
#include <string.h>

#include "../include/tandawire.h"
#include "tables.h"

enum { LEAST = 37, MOST = 4096, SALTS = 64, HASH = 64, COMMON = 100, TRIALS = 4000 };

static const uint32_t differences[] = {10, 50, 100, 200, 500, 1000, 2000};
static const uint32_t hundredths[] = {120, 150, 200, 300, 400, 500};
enum {
    DIFFERENCES = sizeof differences / sizeof differences[0],
    RATIOS = sizeof hundredths / sizeof hundredths[0],
};

static int compare(const void *a, const void *b)
{
    uint64_t x = *(const uint64_t *)a, y = *(const uint64_t *)b;
    return (x > y) - (x < y);
}

/* Building and reading look at the first eight bytes of a hash alone; the rest stays zero. */
static uint8_t ours[MOST * HASH], theirs[MOST * HASH];
static size_t ours_length, theirs_length;

/* The number and the XOR of the IDs in one table alone, by which a list is judged. */
static size_t alone[2];
static uint64_t sum[2];

static void add(uint8_t *table, size_t *length, uint64_t id)
{
    for (int i = 0; i < 8; i++)
        table[*length + i] = (uint8_t)(id >> (56 - 8 * i));
    *length += HASH;
}

/* Random tables: COMMON hashes in both, and so many in one alone. */
static void make_summed(size_t only_ours, size_t only_theirs)
{
    static uint64_t ids[MOST];
    size_t number = COMMON + only_ours + only_theirs;
    size_t give[3] = {only_ours, only_theirs, COMMON};
    for (size_t i = 0; i < number; i++)
        ids[i] = draw();
    qsort(ids, number, sizeof ids[0], compare);
    ours_length = theirs_length = 0;
    sum[0] = sum[1] = 0;
    alone[0] = only_ours;
    alone[1] = only_theirs;
    for (size_t i = 0; i < number; i++) {
        int side = deal(give);
        if (side != 1)
            add(ours, &ours_length, ids[i]);
        if (side != 0)
            add(theirs, &theirs_length, ids[i]);
        if (side != 2)
            sum[side] ^= ids[i];
    }
}

enum { COMPLETE, STUCK, FALSE, WRONG, ENDS };

/* One exchange. Wrong: refused otherwise, or complete with lists that are not the difference. */
static int end_of(uint32_t size, uint32_t salt)
{
    static uint64_t ids[MOST], list[2][MOST];
    static uint32_t hashes[MOST];
    static int64_t counts[MOST];
    uint64_t left[2] = {sum[0], sum[1]};
    if (tandawire_build(theirs, theirs_length, ids, MOST, hashes, MOST, counts, MOST, size, salt))
        return WRONG;
    tandawire_reading r = tandawire_read(ours, ours_length, ids, MOST, hashes, MOST, counts, MOST,
                                         list[0], MOST, list[1], MOST, size, salt);
    if (r.refusal == 6)
        return FALSE;
    if (r.refusal != 0)
        return WRONG;
    if (!r.complete)
        return STUCK;
    for (size_t i = 0; i < r.ours; i++)
        left[0] ^= list[0][i];
    for (size_t i = 0; i < r.theirs; i++)
        left[1] ^= list[1][i];
    if (r.ours != alone[0] || r.theirs != alone[1] || left[0] != 0 || left[1] != 0)
        return WRONG;
    return COMPLETE;
}

static uint32_t nearest_odd(uint32_t hundred_times)
{
    uint32_t size = hundred_times / 200 * 2 + 1;
    return size < LEAST ? LEAST : size > MOST ? MOST - 1 : size;
}

static uint32_t next_power(uint32_t hundred_times)
{
    uint32_t size = 64;
    while (size < MOST && size * 100 < hundred_times)
        size *= 2;
    return size;
}

static void print(const unsigned ends[ENDS], uint32_t size, uint32_t d, unsigned trials)
{
    printf("  %6lu %5.2f %6.1f %6.1f %6.1f", (unsigned long)size, (double)size / d,
           100.0 * ends[COMPLETE] / trials, 100.0 * ends[STUCK] / trials,
           100.0 * ends[FALSE] / trials);
}

/* All lines of one difference; answers how many exchanges were wrong. */
static unsigned report(uint32_t d, uint32_t only_theirs, unsigned trials)
{
    uint32_t size[RATIOS][2];
    unsigned ends[RATIOS][2][ENDS], wrong = 0;
    memset(ends, 0, sizeof ends);
    for (int r = 0; r < RATIOS; r++) {
        size[r][0] = nearest_odd(d * hundredths[r]);
        size[r][1] = next_power(d * hundredths[r]);
    }
    for (unsigned trial = 0; trial < trials; trial++) {
        make_summed(d - only_theirs, only_theirs);
        /* Sizes do not fall from line to line, so equal ones are neighbours. */
        for (int k = 0; k < 2; k++)
            for (int r = 0, end = 0; r < RATIOS; r++) {
                if (r == 0 || size[r][k] != size[r - 1][k])
                    end = end_of(size[r][k], trial % SALTS);
                ends[r][k][end]++;
                wrong += end == WRONG;
            }
    }
    for (int r = 0; r < RATIOS; r++) {
        if (r > 0 && size[r][0] == size[r - 1][0] && size[r][1] == size[r - 1][1])
            continue;
        printf("%6lu %5lu %5.2f", (unsigned long)(d - only_theirs), (unsigned long)only_theirs,
               hundredths[r] / 100.0);
        print(ends[r][0], size[r][0], d, trials);
        print(ends[r][1], size[r][1], d, trials);
        putchar('\n');
    }
    putchar('\n');
    fflush(stdout);
    return wrong;
}

/* The largest sizes, with no factor of two up to twelve; answers how many exchanges were wrong. */
static unsigned report_cap(unsigned trials)
{
    static const uint32_t some[] = {100, 200, 400, 600, 1000}, sizes[] = {4096, 4094, 4093, 4092};
    unsigned wrong = 0;
    printf("%u trials a line, half and half; per cent complete, stuck and false\n", trials);
    for (int i = 0; i < 5; i++) {
        unsigned ends[4][ENDS];
        memset(ends, 0, sizeof ends);
        for (unsigned trial = 0; trial < trials; trial++) {
            make_summed(some[i] / 2, some[i] / 2);
            for (int k = 0; k < 4; k++)
                ends[k][end_of(sizes[k], trial % SALTS)]++;
        }
        printf("%6lu", (unsigned long)some[i]);
        for (int k = 0; k < 4; k++) {
            print(ends[k], sizes[k], some[i], trials);
            wrong += ends[k][WRONG];
        }
        putchar('\n');
    }
    return wrong;
}

/* The whole table. */
static unsigned report_all(unsigned trials)
{
    unsigned wrong = 0;
    printf("%u trials a line, %d common elements; per cent complete, stuck and false\n\n", trials,
           COMMON);
    printf("%6s %5s %5s  %33s  %33s\n", "", "", "", "nearest odd size", "power of two above");
    printf("%6s %5s %5s", "ours", "th.", "ratio");
    for (int i = 0; i < 2; i++)
        printf("  %6s %5s %6s %6s %6s", "size", "/ d", "compl.", "stuck", "false");
    putchar('\n');
    for (int i = 0; i < DIFFERENCES; i++) {
        wrong += report(differences[i], 0, trials);
        wrong += report(differences[i], differences[i] / 2, trials);
    }
    return wrong;
}

int main(int argc, char **argv)
{
    int cap = argc == 3 && strcmp(argv[1], "cap") == 0;
    unsigned trials = argc > 1 ? (unsigned)strtoul(argv[argc - 1], NULL, 10) : TRIALS, wrong;
    if (argc > 3 || (argc == 3 && !cap) || trials == 0) {
        fputs("use: rates, rates TRIALS, or rates cap TRIALS\n", stderr);
        return 2;
    }
    wrong = cap ? report_cap(trials) : report_all(trials);
    printf("complete with wrong lists, or refused otherwise: %u\n", wrong);
    return wrong != 0;
}
