/* Building and reading in plain C, as a good C programmer would write them: the library is measured beside this, and held to it by
 * `filters check`. The same checks of form, the same work. */
#ifndef TANDAWIRE_BASELINE_H
#define TANDAWIRE_BASELINE_H

#include <stdint.h>
#include <string.h>

#include "../include/tandawire.h"
#include "crc.h"

enum { LEAST = 37, MOST = 4096, SALTS = 64, HASH = 64, DRAWS = 64, NONE = 0xFFFF };

/* The three places of the ID whose CRC-32 is draw. */
static inline void places_of(crc_tables t, uint32_t draw, uint32_t size, uint16_t out[3])
{
    uint32_t i = 0, a = draw % size, b = a, c;
    while (b == a && i < DRAWS - 1) {
        draw = next_draw(t, draw, i++);
        b = draw % size;
    }
    if (b == a)
        b = a == 0;
    c = a;
    while ((c == a || c == b) && i < DRAWS - 1) {
        draw = next_draw(t, draw, i++);
        c = draw % size;
    }
    if (c == a || c == b)
        for (c = 0; c == a || c == b; c++)
            ;
    out[0] = (uint16_t)a;
    out[1] = (uint16_t)b;
    out[2] = (uint16_t)c;
}

static inline uint64_t id_at(const uint8_t *table, size_t i)
{
    const uint8_t *h = table + HASH * i;
    return (uint64_t)h[0] << 56 | (uint64_t)h[1] << 48 | (uint64_t)h[2] << 40 |
           (uint64_t)h[3] << 32 | (uint64_t)h[4] << 24 | (uint64_t)h[5] << 16 |
           (uint64_t)h[6] << 8 | (uint64_t)h[7];
}

static inline uint64_t rotated_right(uint64_t x, uint32_t by)
{
    return x >> (by & 63) | x << (-by & 63);
}

/* Hashes ascend and share no ID exactly when the IDs ascend. */
static int is_table(const uint8_t *table, size_t length)
{
    size_t number = length / HASH;
    if (length % HASH != 0 || number > MOST)
        return 0;
    for (size_t i = 1; i < number; i++)
        if (id_at(table, i - 1) >= id_at(table, i))
            return 0;
    return 1;
}

static int in_table(const uint8_t *table, size_t number, uint64_t id)
{
    size_t low = 0;
    if (number == 0)
        return 0;
    /* The last ID not above id is in low .. low + number - 1, if there is one. */
    while (number > 1) {
        size_t half = number / 2;
        low = id_at(table, low + half) <= id ? low + half : low;
        number -= half;
    }
    return id_at(table, low) == id;
}

/* Puts the salted ID in its three places, with the count given. */
__attribute__((always_inline)) static inline void
add(crc_tables t, uint64_t id, int64_t count, uint64_t *ids, uint32_t *hashes, int64_t *counts,
    uint32_t size)
{
    uint32_t crc = crc_of(t, id);
    uint16_t at[3];
    places_of(t, crc, size, at);
    for (int k = 0; k < 3; k++) {
        ids[at[k]] ^= id;
        hashes[at[k]] ^= crc;
        counts[at[k]] += count;
    }
}

static void add_table(crc_tables t, const uint8_t *table, size_t number, uint64_t *ids,
                      uint32_t *hashes, int64_t *counts, uint32_t size, uint32_t salt)
{
    for (size_t i = 0; i < number; i++)
        add(t, rotated_right(id_at(table, i), salt * 7), 1, ids, hashes, counts, size);
}

static inline void clear(uint64_t *ids, uint32_t *hashes, int64_t *counts, size_t size)
{
    memset(ids, 0, size * sizeof *ids);
    memset(hashes, 0, size * sizeof *hashes);
    memset(counts, 0, size * sizeof *counts);
}

uint32_t c_build(const uint8_t *table, size_t length, uint64_t *ids, size_t ids_room,
                 uint32_t *hashes, size_t hashes_room, int64_t *counts, size_t counts_room,
                 uint32_t size, uint32_t salt)
{
    crc_tables t;
    if (!is_table(table, length))
        return 1;
    if (size < LEAST || size > MOST || salt >= SALTS)
        return 3;
    if (ids_room < size || hashes_room < size || counts_room < size)
        return 2;
    make_tables(t);
    clear(ids, hashes, counts, size);
    add_table(t, table, length / HASH, ids, hashes, counts, size, salt);
    return 0;
}

/* A reading under way. Bit b of word w of pure: bucket 64 w + b looks pure; bit w of top: word
 * w is not zero. Where a bucket looks pure, at holds the places of its ID. Outside of a peeling
 * none looks pure. */
struct reading {
    crc_tables t;
    uint64_t *ids;
    uint32_t *hashes;
    int64_t *counts;
    uint32_t size;
    uint64_t top, pure[MOST / 64];
    /* Buckets that looks from bucket 0 go over. */
    size_t looked;
    uint16_t at[MOST][3];
    /* The salted IDs listed, chained by their first place. */
    uint64_t listed[MOST];
    uint16_t first[MOST], next[MOST];
};

static inline int looks_pure(struct reading *r, uint32_t b)
{
    uint16_t *at = r->at[b];
    if (r->counts[b] != 1 && r->counts[b] != -1)
        return 0;
    if (r->hashes[b] != crc_of(r->t, r->ids[b]))
        return 0;
    places_of(r->t, r->hashes[b], r->size, at);
    return at[0] == b || at[1] == b || at[2] == b;
}

static inline void look_at(struct reading *r, uint32_t b)
{
    uint64_t bit = UINT64_C(1) << b % 64, *word = &r->pure[b / 64];
    *word = looks_pure(r, b) ? *word | bit : *word & ~bit;
    bit = UINT64_C(1) << b / 64;
    r->top = *word != 0 ? r->top | bit : r->top & ~bit;
}

/* Notes the ID as peel number n; 0 if it was listed before. */
static inline int is_new(struct reading *r, uint64_t id, uint16_t place, uint16_t n)
{
    for (uint16_t i = r->first[place]; i != NONE; i = r->next[i])
        if (r->listed[i] == id)
            return 0;
    r->listed[n] = id;
    r->next[n] = r->first[place];
    r->first[place] = n;
    return 1;
}

/* Before the first of some readings. */
static inline void prepare_reading(struct reading *r)
{
    make_tables(r->t);
    r->top = 0;
    memset(r->pure, 0, sizeof r->pure);
}

/* Begins a reading of the difference in the columns. */
static inline void begin_reading(struct reading *r, uint64_t *ids, uint32_t *hashes,
                                 int64_t *counts, uint32_t size)
{
    r->ids = ids;
    r->hashes = hashes;
    r->counts = counts;
    r->size = size;
    r->looked = 0;
    memset(r->first, 0xFF, size * sizeof r->first[0]);
    for (uint32_t b = 0; b < size; b++)
        if (looks_pure(r, b)) {
            r->pure[b / 64] |= UINT64_C(1) << b % 64;
            r->top |= UINT64_C(1) << b / 64;
        }
}

enum peel { PEELED, NONE_PURE, PEELED_FALSELY };

/* Peels the lowest bucket that looks pure, after so many peels. */
static inline enum peel peel(struct reading *r, size_t peels, uint64_t *id, int64_t *count)
{
    if (r->top == 0) {
        r->looked += r->size;
        return NONE_PURE;
    }
    uint32_t w = (uint32_t)__builtin_ctzll(r->top);
    uint32_t b = 64 * w + (uint32_t)__builtin_ctzll(r->pure[w]), crc = r->hashes[b];
    r->looked += b + 1;
    uint16_t at[3] = {r->at[b][0], r->at[b][1], r->at[b][2]};
    *id = r->ids[b];
    *count = r->counts[b];
    if (peels == r->size || !is_new(r, *id, at[0], (uint16_t)peels))
        return PEELED_FALSELY;
    for (int k = 0; k < 3; k++) {
        r->ids[at[k]] ^= *id;
        r->hashes[at[k]] ^= crc;
        r->counts[at[k]] -= *count;
        look_at(r, at[k]);
    }
    return PEELED;
}

static inline int is_zero(const uint64_t *ids, const uint32_t *hashes, const int64_t *counts,
                          size_t size)
{
    uint64_t left = 0;
    for (size_t b = 0; b < size; b++)
        left |= ids[b] | hashes[b] | (uint64_t)counts[b];
    return left == 0;
}

/* Whether a COUNT is out of range; of a short column, what is there is judged. */
static inline int counts_are_wide(const int64_t *counts, size_t room, size_t size)
{
    uint64_t wide = 0;
    for (size_t i = 0; i < size && i < room; i++)
        wide |= (uint64_t)counts[i] >> 32;
    return wide != 0;
}

/* What a reading lists, and how many. */
struct lists {
    uint64_t *ours, *theirs;
    size_t ours_number, theirs_number;
};

/* Lists what can be peeled off the difference in the columns, without the salt. Never inlined, so
 * that its instructions can be counted alone, as those of the library's peeling are. */
__attribute__((noinline)) enum peel c_peel(struct reading *r, struct lists *l, uint64_t *ids,
                                           uint32_t *hashes, int64_t *counts, uint32_t size,
                                           uint32_t salt)
{
    enum peel end;
    uint64_t id;
    int64_t count;
    begin_reading(r, ids, hashes, counts, size);
    while ((end = peel(r, l->ours_number + l->theirs_number, &id, &count)) == PEELED)
        if (count == 1)
            l->ours[l->ours_number++] = rotated_right(id, -(salt * 7));
        else
            l->theirs[l->theirs_number++] = rotated_right(id, -(salt * 7));
    return end;
}

/* Whether a complete reading lists as ours what is in our table, and as theirs what is not. */
static int fits_table(const struct lists *l, const uint8_t *table, size_t number)
{
    for (size_t i = 0; i < l->ours_number; i++)
        if (!in_table(table, number, l->ours[i]))
            return 0;
    for (size_t i = 0; i < l->theirs_number; i++)
        if (in_table(table, number, l->theirs[i]))
            return 0;
    return 1;
}

tandawire_reading c_read(const uint8_t *table, size_t length, uint64_t *ids, size_t ids_room,
                         uint32_t *hashes, size_t hashes_room, int64_t *counts,
                         size_t counts_room, uint64_t *ours, size_t ours_room, uint64_t *theirs,
                         size_t theirs_room, uint32_t size, uint32_t salt)
{
    struct reading r;
    struct lists l = {ours, theirs, 0, 0};
    size_t number = length / HASH;
    if (!is_table(table, length) || counts_are_wide(counts, counts_room, size))
        return (tandawire_reading){1, 0, 0, 0, 0};
    if (size < LEAST || size > MOST || salt >= SALTS)
        return (tandawire_reading){3, 0, 0, 0, 0};
    if (ids_room < size || hashes_room < size || counts_room < size || ours_room < size ||
        theirs_room < size)
        return (tandawire_reading){2, 0, 0, 0, 0};

    prepare_reading(&r);
    for (uint32_t b = 0; b < size; b++)
        counts[b] = -counts[b];
    add_table(r.t, table, number, ids, hashes, counts, size, salt);
    enum peel end = c_peel(&r, &l, ids, hashes, counts, size, salt);
    int complete = end == NONE_PURE && is_zero(ids, hashes, counts, size);
    if (end == PEELED_FALSELY || (complete && !fits_table(&l, table, number))) {
        clear(ids, hashes, counts, size);
        memset(ours, 0, size * sizeof *ours);
        memset(theirs, 0, size * sizeof *theirs);
        return (tandawire_reading){6, 0, 0, 0, r.looked};
    }
    memset(ours + l.ours_number, 0, (size - l.ours_number) * sizeof *ours);
    memset(theirs + l.theirs_number, 0, (size - l.theirs_number) * sizeof *theirs);
    return (tandawire_reading){0, (uint32_t)complete, l.ours_number, l.theirs_number, r.looked};
}

#endif
