/* Nanoseconds per call of the library's loops, and of plain C beside them.
 *
 *   bench          the table
 *   bench NAME N   one loop once, n = N, and its result (for counting instructions)
 *   bench names    the names, one a line
 *   bench check    only whether the library and the C end their chains in the same number
 *
 * Each loop is a chain: a call needs the answer of the one before, so none can be skipped or
 * run beside another. Tables are made once a loop, in the library's loops and in those here.
 */
#define _POSIX_C_SOURCE 199309L
#include <stdint.h>
#include <stdio.h>
#include <stdlib.h>
#include <string.h>
#include <time.h>

#include "crc.h"

uint32_t tandawire_bench_crc(uint32_t n);
uint32_t tandawire_bench_crc_by_tables(uint32_t n);
uint32_t tandawire_bench_places(uint32_t n, uint32_t size, size_t k);

enum { ROUNDS = 9, LEAST_NS = 20 * 1000 * 1000, SIZE = 1000, PLACES = 3, DRAWS = 64, MOST = 4 };

/* Read at run time, so that no division by a constant is made of them. */
static volatile uint32_t filter_size = SIZE;
static volatile size_t place_number = PLACES;

static crc_tables table;

/* The three below: CRC-32 of x as eight bytes, most significant first. */

static uint32_t crc_by_bits(uint64_t x)
{
    uint32_t crc = 0xFFFFFFFFu;
    for (int shift = 56; shift >= 0; shift -= 8) {
        crc ^= (uint32_t)(x >> shift) & 0xFF;
        for (int bit = 0; bit < 8; bit++)
            crc = crc & 1 ? crc >> 1 ^ 0xEDB88320u : crc >> 1;
    }
    return ~crc;
}

static uint32_t crc_by_one_table(uint64_t x)
{
    uint32_t crc = 0xFFFFFFFFu;
    for (int shift = 56; shift >= 0; shift -= 8)
        crc = crc >> 8 ^ table[0][(crc ^ x >> shift) & 0xFF];
    return ~crc;
}

/* As crc_of, which is inlined everywhere; this one the compiler calls where draws are made. */
static uint32_t crc_by_eight_tables(uint64_t x)
{
    x ^= 0xFFFFFFFF00000000u;
    return ~(table[7][x >> 56] ^ table[6][x >> 48 & 0xFF] ^ table[5][x >> 40 & 0xFF] ^
             table[4][x >> 32 & 0xFF] ^ table[3][x >> 24 & 0xFF] ^ table[2][x >> 16 & 0xFF] ^
             table[1][x >> 8 & 0xFF] ^ table[0][x & 0xFF]);
}

static uint32_t draw_by_five_lookups(uint32_t draw, uint32_t i)
{
    return next_draw(table, draw, i);
}

static uint32_t draw_by_eight_lookups(uint32_t draw, uint32_t i)
{
    return crc_by_eight_tables((uint64_t)draw << 32 | i);
}

static int taken(const uint32_t *out, size_t found, uint32_t place)
{
    for (size_t i = 0; i < found; i++)
        if (out[i] == place)
            return 1;
    return 0;
}

/* The first distinct remainders of draws 0 to 63; the lowest buckets make up what lacks. */
static inline void places(uint32_t next(uint32_t, uint32_t), uint32_t draw, uint32_t size,
                          size_t k, uint32_t out[MOST])
{
    size_t wanted = k < MOST ? k : MOST, found = 0;
    if (wanted > size)
        wanted = size;
    memset(out, 0, MOST * sizeof out[0]);
    for (uint32_t i = 0; i < DRAWS && found < wanted; i++) {
        if (i > 0)
            draw = next(draw, i - 1);
        uint32_t place = draw % size;
        if (!taken(out, found, place))
            out[found++] = place;
    }
    for (uint32_t place = 0; found < wanted; place++)
        if (!taken(out, found, place))
            out[found++] = place;
}

/* The loops. A CRC is chained as the draws are: the one before above, its number below. */

static uint32_t c_crc_by_bits(uint32_t n)
{
    uint32_t x = 1;
    for (uint32_t i = 0; i < n; i++)
        x = crc_by_bits((uint64_t)x << 32 | i);
    return x;
}

static uint32_t c_crc_by_one_table(uint32_t n)
{
    uint32_t x = 1;
    make_first_table(table);
    for (uint32_t i = 0; i < n; i++)
        x = crc_by_one_table((uint64_t)x << 32 | i);
    return x;
}

static uint32_t c_crc_by_tables(uint32_t n)
{
    uint32_t x = 1;
    make_tables(table);
    for (uint32_t i = 0; i < n; i++)
        x = crc_by_eight_tables((uint64_t)x << 32 | i);
    return x;
}

/* Draw 0 is given: a stride on from the one before, with its places mixed in. */
static inline uint32_t c_places(uint32_t next(uint32_t, uint32_t), uint32_t n)
{
    uint32_t x = 1, size = filter_size, out[MOST];
    size_t k = place_number;
    make_tables(table);
    for (uint32_t i = 0; i < n; i++) {
        places(next, x, size, k, out);
        x = (x + 0x9E3779B9u) ^ ((out[0] ^ out[1]) ^ (out[2] ^ out[3]));
    }
    return x;
}

static uint32_t c_places_by_five(uint32_t n)
{
    return c_places(draw_by_five_lookups, n);
}

static uint32_t c_places_by_eight(uint32_t n)
{
    return c_places(draw_by_eight_lookups, n);
}

static uint32_t library_places(uint32_t n)
{
    return tandawire_bench_places(n, filter_size, place_number);
}

static const struct loop {
    const char *name, *what;
    uint32_t (*run)(uint32_t n);
} loops[] = {
    {"crc", "library, CRC a bit at a time", tandawire_bench_crc},
    {"c_crc_by_bits", "C,       CRC a bit at a time", c_crc_by_bits},
    {"c_crc_by_one_table", "C,       CRC by one table", c_crc_by_one_table},
    {"crc_by_tables", "library, CRC by eight tables", tandawire_bench_crc_by_tables},
    {"c_crc_by_tables", "C,       CRC by eight tables", c_crc_by_tables},
    {"places", "library, three places at size 1000", library_places},
    {"c_places_by_five", "C,       the same, five lookups", c_places_by_five},
    {"c_places_by_eight", "C,       the same, eight lookups", c_places_by_eight},
};
enum { LOOPS = sizeof loops / sizeof loops[0] };

/* The baselines must be right before their speed says anything. */
static int baselines_are_right(void)
{
    static const uint64_t given[] = {0, 1, 0x0101010101010101u, 0x0123456789ABCDEFu, UINT64_MAX};
    uint32_t out[MOST];
    make_tables(table);
    if (crc_by_bits(0) != 0x6522DF69u)
        return 0;
    for (size_t i = 0; i < sizeof given / sizeof given[0]; i++) {
        uint32_t crc = crc_by_bits(given[i]);
        if (crc_by_one_table(given[i]) != crc || crc_by_eight_tables(given[i]) != crc)
            return 0;
    }
    places(draw_by_five_lookups, crc_by_bits(0x0101010101010101u), 37, 3, out);
    if (out[0] != 20 || out[1] != 19 || out[2] != 13 || out[3] != 0)
        return 0;
    /* 64 draws of this one miss bucket 2 of four. */
    places(draw_by_eight_lookups, 0x1FA5D1F9u, 4, 4, out);
    return out[3] == 2;
}

/* The library and the C run the same chains, so they must end in the same number. */
static int loops_agree(void)
{
    const uint32_t n = 5000, crc = c_crc_by_bits(n), mixed = c_places_by_eight(n);
    return tandawire_bench_crc(n) == crc && tandawire_bench_crc_by_tables(n) == crc &&
           c_crc_by_one_table(n) == crc && c_crc_by_tables(n) == crc &&
           library_places(n) == mixed && c_places_by_five(n) == mixed;
}

static volatile uint32_t sink;

static double time_of(const struct loop *loop, uint32_t n)
{
    struct timespec a, b;
    clock_gettime(CLOCK_MONOTONIC, &a);
    sink = loop->run(n);
    clock_gettime(CLOCK_MONOTONIC, &b);
    return (double)(b.tv_sec - a.tv_sec) * 1e9 + (double)(b.tv_nsec - a.tv_nsec);
}

static void report(const struct loop *loop)
{
    uint32_t n = 1024;
    while (time_of(loop, n) < LEAST_NS && n < UINT32_C(1) << 30)
        n *= 2;
    double best = time_of(loop, n);
    for (int round = 1; round < ROUNDS; round++) {
        double again = time_of(loop, n);
        if (again < best)
            best = again;
    }
    printf("%-36s %10.2f %12lu\n", loop->what, best / n, (unsigned long)n);
    fflush(stdout);
}

int main(int argc, char **argv)
{
    if (!baselines_are_right()) {
        puts("bench: the C baselines are wrong");
        return 1;
    }
    if ((argc == 1 || (argc == 2 && strcmp(argv[1], "check") == 0)) && !loops_agree()) {
        puts("bench: the library and the C baselines do not agree");
        return 1;
    }
    if (argc == 2 && strcmp(argv[1], "check") == 0)
        return 0;
    if (argc == 1) {
        printf("%-36s %10s %12s\n", "", "ns a call", "calls");
        for (int i = 0; i < LOOPS; i++)
            report(&loops[i]);
        return 0;
    }
    if (argc == 2 && strcmp(argv[1], "names") == 0) {
        for (int i = 0; i < LOOPS; i++)
            printf("%s %s\n", loops[i].name, loops[i].what);
        return 0;
    }
    for (int i = 0; argc == 3 && i < LOOPS; i++) {
        if (strcmp(argv[1], loops[i].name) == 0) {
            printf("%08lx\n", (unsigned long)loops[i].run((uint32_t)strtoul(argv[2], NULL, 10)));
            return 0;
        }
    }
    fputs("use: bench, bench names, bench check, or bench NAME N\n", stderr);
    return 2;
}
