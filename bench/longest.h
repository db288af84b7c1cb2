/* Columns whose reading against the empty table is the longest that was found: as many peels as
 * buckets, most of them at high buckets. The list is that of compare/, and is turned into columns as
 * there, by reading it: a bucket's numbers are settled when so many elements have been taken out that it holds
 * its first element and nothing else. Until then, and for ever where it is never peeled, its count
 * does not come near 1. */
#ifndef TANDAWIRE_LONGEST_H
#define TANDAWIRE_LONGEST_H

#include "baseline.h"

enum { LONGEST = 13529091 };

static const int64_t longest_list[MOST] = {
#include "../compare/longest-4096.inc"
};

/* The list being turned into columns: the difference at first and while it is read, and how many
 * elements each bucket waits for, -1 for none. */
struct settling {
    crc_tables t;
    uint64_t ids[2][MOST];
    uint32_t hashes[2][MOST];
    int64_t counts[2][MOST];
    int64_t waits[MOST];
};

/* The number with this upper half and this CRC: what changes the CRC to it is found by shifting the
 * register back over the lower half. */
static uint64_t with_crc(struct settling *s, uint32_t crc, uint32_t upper)
{
    uint64_t id = (uint64_t)upper << 32;
    uint32_t change = crc ^ crc_of(s->t, id);
    for (int bit = 0; bit < 32; bit++)
        change = change >> 31 ? (change ^ 0xEDB88320u) << 1 | 1 : change << 1;
    return id | __builtin_bswap32(change);
}

static void settle(struct settling *s, uint32_t b)
{
    if (s->waits[b] != 0)
        return;
    int64_t number = longest_list[b], sign = number < 0 ? -1 : 1;
    uint32_t crc = (uint32_t)(number < 0 ? -number : number), hash = crc ^ s->hashes[1][b];
    uint64_t id = with_crc(s, crc, (b + 1) * UINT32_C(0x9E3779B1) ^ b << 9) ^ s->ids[1][b];
    int64_t count = sign - s->counts[1][b];
    for (int i = 0; i < 2; i++) {
        s->ids[i][b] ^= id;
        s->hashes[i][b] ^= hash;
        s->counts[i][b] += count;
    }
    s->waits[b] = -1;
}

/* The lowest bucket that looks pure, with its places; MOST for none. */
static uint32_t lowest_pure(struct settling *s, uint16_t at[3])
{
    for (uint32_t b = 0; b < MOST; b++) {
        if ((s->counts[1][b] != 1 && s->counts[1][b] != -1) ||
            s->hashes[1][b] != crc_of(s->t, s->ids[1][b]))
            continue;
        places_of(s->t, s->hashes[1][b], MOST, at);
        if (at[0] == b || at[1] == b || at[2] == b)
            return b;
    }
    return MOST;
}

/* Takes what bucket b holds out of its places. */
static void take_out(struct settling *s, uint32_t b, const uint16_t at[3])
{
    uint64_t id = s->ids[1][b];
    uint32_t hash = s->hashes[1][b];
    int64_t count = s->counts[1][b];
    for (int k = 0; k < 3; k++) {
        uint32_t p = at[k];
        s->ids[1][p] ^= id;
        s->hashes[1][p] ^= hash;
        s->counts[1][p] -= count;
        s->waits[p] -= s->waits[p] > 0;
        settle(s, p);
    }
}

/* The columns as they are received: our table is empty, so their counts are the difference's,
 * negated. */
static void make_longest(uint64_t *ids, uint32_t *hashes, int64_t *counts)
{
    static struct settling s;
    uint16_t at[3];
    memset(&s, 0, sizeof s);
    make_tables(s.t);
    for (uint32_t b = 0; b < MOST; b++) {
        int64_t number = longest_list[b];
        s.waits[b] = number == 0 || number == 1 ? -1 : ((number < 0 ? -number : number) >> 32) - 1;
        s.counts[0][b] = s.counts[1][b] = number == 1 ? 0 : -1000;
    }
    for (uint32_t b = 0; b < MOST; b++)
        settle(&s, b);
    for (int peels = 0; peels < MOST; peels++) {
        uint32_t b = lowest_pure(&s, at);
        if (b == MOST)
            break;
        take_out(&s, b, at);
    }
    memcpy(ids, s.ids[0], sizeof s.ids[0]);
    memcpy(hashes, s.hashes[0], sizeof s.hashes[0]);
    for (uint32_t b = 0; b < MOST; b++)
        counts[b] = -s.counts[0][b];
}

#endif
