/* What the C tests share: expectations, and tables of hashes that begin with a number. */
#ifndef TESTS_EXPECT_H
#define TESTS_EXPECT_H

#include "../include/tandawire.h"

#include <stdio.h>
#include <stdlib.h>
#include <string.h>

/* Each test names itself. */
static const char *test = "test";

static inline void expect(const char *what, size_t got, size_t wanted)
{
    if (got != wanted) {
        fprintf(stderr, "%s: %s: got %zu, wanted %zu\n", test, what, got, wanted);
        exit(1);
    }
}

/* The hash that begins with a number, most significant byte first, so that the number is its ID. */
static inline void put_hash(uint8_t *hash, uint64_t id)
{
    memset(hash, 0, TANDAWIRE_HASH_BYTES);
    for (int b = 0; b < 8; b++)
        hash[b] = (uint8_t)(id >> (56 - 8 * b));
}

/* The hashes of so many numbers from one on, ascending; their bytes. */
static inline size_t put_table(uint8_t *table, uint64_t from, size_t number)
{
    for (size_t i = 0; i < number; i++)
        put_hash(table + i * TANDAWIRE_HASH_BYTES, from + i);
    return number * TANDAWIRE_HASH_BYTES;
}

/* That a list holds so many numbers from one on, each once in whatever order, and zeros behind them up to its size. */
static inline void expect_listed(const char *what, const uint64_t *list, size_t size, uint64_t from, size_t number)
{
    for (uint64_t id = from; id < from + number; id++) {
        size_t times = 0;
        for (size_t i = 0; i < number; i++)
            times += list[i] == id;
        expect(what, times, 1);
    }
    for (size_t i = number; i < size; i++)
        expect(what, (size_t)list[i], 0);
}

#endif
