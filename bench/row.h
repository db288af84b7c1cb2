/* A stratum whose 79 buckets are peeled in a row. No table makes one.
 *
 * An ID lies in the bucket where it is found, in the one that is next and so does not look pure
 * before, and in a third that is not yet peeled. What is taken from a bucket after its own peel
 * was never in it and stays there: buckets 77 and 78 alone get such. They are peeled first; they
 * look pure again only while a lower one does, until too much was taken from them. So 79 peels
 * end stuck. */
#ifndef TANDAWIRE_ROW_H
#define TANDAWIRE_ROW_H

#include "estimator.h"
#include "tables.h"

enum { ANY = BUCKETS };

struct row {
    crc_tables t;
    uint64_t *ids;
    uint32_t *hashes;
    int64_t *counts;
    uint8_t peeled[BUCKETS];
};

static int lies_in(struct row *row, uint64_t id, uint32_t a, uint32_t b, uint32_t c)
{
    uint16_t at[3];
    int two = 0, third = 0;
    places_of(row->t, crc_of(row->t, id), BUCKETS, at);
    for (int k = 0; k < 3; k++)
        if (at[k] == a || at[k] == b)
            two++;
        else
            third = c == ANY ? at[k] > 76 || !row->peeled[at[k]] : at[k] == c;
    return two == 2 && third;
}

static uint64_t drawn(struct row *row, uint32_t a, uint32_t b, uint32_t c)
{
    uint64_t id;
    do
        id = draw();
    while (!lies_in(row, id, a, b, c));
    return id;
}

/* Adds the ID that is found in bucket b when all before it are taken away. */
static void peel_next(struct row *row, uint32_t b, uint64_t id, int64_t count)
{
    uint32_t crc = crc_of(row->t, id);
    uint16_t at[3];
    places_of(row->t, crc, BUCKETS, at);
    for (int k = 0; k < 3; k++)
        if (!row->peeled[at[k]]) {
            row->ids[at[k]] ^= id;
            row->hashes[at[k]] ^= crc;
            row->counts[at[k]] += count;
        }
    row->peeled[b] = 1;
}

/* Plain; with one peel more, where three IDs taken from 77 look like one there while no lower
 * bucket looks pure; or with the first ID as the last once more, as ours or as theirs. */
enum row_kind { PLAIN, ONE_MORE, OURS_AGAIN, THEIRS_AGAIN, ROW_KINDS };

static void make_row(uint64_t *ids, uint32_t *hashes, int64_t *counts, enum row_kind kind)
{
    static struct row row;
    uint32_t b = 0;
    uint64_t first, last;
    make_tables(row.t);
    row.ids = ids;
    row.hashes = hashes;
    row.counts = counts;
    memset(row.peeled, 0, sizeof row.peeled);
    first = drawn(&row, 76, 77, 78);
    last = kind == PLAIN || kind == ONE_MORE ? drawn(&row, 76, 77, 78) : first;
    peel_next(&row, 77, first, 1);
    peel_next(&row, 78, drawn(&row, 78, 0, 1), 1);
    if (kind == ONE_MORE) {
        uint64_t one = drawn(&row, 0, 1, 77), two = drawn(&row, 1, 2, 77), three;
        peel_next(&row, 0, one, 1);
        peel_next(&row, 1, two, 1);
        do
            three = drawn(&row, 2, 77, ANY);
        while (!lies_in(&row, one ^ two ^ three, 77, 3, ANY));
        peel_next(&row, 2, three, -1);
        peel_next(&row, 77, one ^ two ^ three, -1);
        b = 3;
    }
    for (; b < 76; b++)
        peel_next(&row, b, drawn(&row, b, b + 1, ANY), 1);
    peel_next(&row, 76, last, kind == THEIRS_AGAIN ? -1 : 1);
}

#endif
