/* Random numbers and random tables, the same in every run. */
#ifndef TANDAWIRE_TABLES_H
#define TANDAWIRE_TABLES_H

#include <stdint.h>
#include <stdlib.h>
#include <string.h>

#include "../include/tandawire.h"

#define SEED UINT64_C(88172645463325252)
static uint64_t state = SEED;

static uint64_t draw(void)
{
    state ^= state << 13;
    state ^= state >> 7;
    state ^= state << 17;
    return state;
}

/* One of three kinds at random, where so many of each are left to give. */
static int deal(size_t give[3])
{
    size_t at = draw() % (give[0] + give[1] + give[2]);
    int kind = at < give[0] ? 0 : at < give[0] + give[1] ? 1 : 2;
    give[kind]--;
    return kind;
}

/* Our table and theirs, with room for one hash too many. */
struct tables {
    uint8_t ours[(TANDAWIRE_MOST_ELEMENTS + 1) * TANDAWIRE_HASH_BYTES];
    uint8_t theirs[(TANDAWIRE_MOST_ELEMENTS + 1) * TANDAWIRE_HASH_BYTES];
    size_t ours_length, theirs_length;
};

static inline int compare_hashes(const void *a, const void *b)
{
    return memcmp(a, b, TANDAWIRE_HASH_BYTES);
}

/* Random tables: common hashes in both, and so many in one alone. */
static inline void make(struct tables *t, size_t common, size_t ours, size_t theirs)
{
    enum { HASH_BYTES = TANDAWIRE_HASH_BYTES };
    static uint8_t all[2 * TANDAWIRE_MOST_ELEMENTS * HASH_BYTES];
    size_t number = common + ours + theirs, give[3] = {common, ours, theirs};
    for (size_t i = 0; i < number * HASH_BYTES; i += 8) {
        uint64_t eight = draw();
        memcpy(all + i, &eight, 8);
    }
    qsort(all, number, HASH_BYTES, compare_hashes);
    t->ours_length = t->theirs_length = 0;
    for (const uint8_t *hash = all; hash < all + number * HASH_BYTES; hash += HASH_BYTES) {
        int kind = deal(give);
        if (kind != 2) {
            memcpy(t->ours + t->ours_length, hash, HASH_BYTES);
            t->ours_length += HASH_BYTES;
        }
        if (kind != 1) {
            memcpy(t->theirs + t->theirs_length, hash, HASH_BYTES);
            t->theirs_length += HASH_BYTES;
        }
    }
}

#endif
