/* Estimating a difference over a line, for the examples: an estimator as bytes, since document 01 has no
 * message for it, and what the end that gets one does.
 *
 * Most of its 2,528 buckets are empty, so only the others travel, by ascending place, 16 bytes each:
 *
 *     2 bytes    place, 0 to 2,527
 *     8 bytes    IDSUM
 *     4 bytes    HASHSUM
 *     2 bytes    COUNT: that of 4,096 elements is at most 4,096
 *
 * all most significant byte first. How many there are follows from the length. */
#ifndef EXAMPLES_ESTIMATE_H
#define EXAMPLES_ESTIMATE_H

#include <string.h>

#include "tandawire.h"

enum { ESTIMATE_BUCKET = 16, ESTIMATE_MOST = TANDAWIRE_ESTIMATOR_PLACES * ESTIMATE_BUCKET };

static inline void estimate_put(uint8_t *out, unsigned bytes, uint64_t number)
{
    for (unsigned i = 0; i < bytes; i++)
        out[i] = (uint8_t)(number >> 8 * (bytes - 1 - i));
}

static inline uint64_t estimate_get(const uint8_t *in, unsigned bytes)
{
    uint64_t number = 0;
    for (unsigned i = 0; i < bytes; i++)
        number = number << 8 | in[i];
    return number;
}

/* Writes the estimator of a table. Answers how many bytes it took. */
static inline size_t estimate_write(const uint8_t *table, size_t table_length, uint8_t out[ESTIMATE_MOST])
{
    static tandawire_estimator e;
    size_t at = 0;
    if (tandawire_estimator_make(&e, table, table_length))
        return 0; /* not a table: the session will say so */
    for (unsigned place = 0; place < TANDAWIRE_ESTIMATOR_PLACES; place++) {
        if (!e.ids[place] && !e.hashes[place] && !e.counts[place])
            continue;
        estimate_put(out + at, 2, place);
        estimate_put(out + at + 2, 8, e.ids[place]);
        estimate_put(out + at + 10, 4, e.hashes[place]);
        estimate_put(out + at + 14, 2, (uint64_t)e.counts[place]);
        at += ESTIMATE_BUCKET;
    }
    return at;
}

/* Reads what a far end sent. Answers whether it is an estimator: a far end may send anything, so no place
 * is believed to be one, or to come but once. What the buckets hold is for the library to judge. */
static inline int estimate_read(tandawire_estimator *e, const uint8_t *in, size_t length)
{
    uint64_t least = 0;
    memset(e, 0, sizeof *e);
    if (length % ESTIMATE_BUCKET)
        return 0;
    for (size_t at = 0; at < length; at += ESTIMATE_BUCKET) {
        uint64_t place = estimate_get(in + at, 2);
        if (place < least || place >= TANDAWIRE_ESTIMATOR_PLACES)
            return 0;
        e->ids[place] = estimate_get(in + at + 2, 8);
        e->hashes[place] = (uint32_t)estimate_get(in + at + 10, 4);
        e->counts[place] = (int64_t)estimate_get(in + at + 14, 2);
        least = place + 1;
    }
    return 1;
}

/* Estimates the difference between our table and that of the far end, by the estimator it sent, and finds
 * a size for a filter, so many times the difference. Where the difference is unknown, both tables together
 * stand for it, twice as a rule: tables with little in common then mostly read at the first try. Answers
 * null, or why there is no estimate. */
static inline const char *estimate_difference(const uint8_t *table, size_t table_length, const uint8_t *in,
                                              size_t length, uint32_t times, tandawire_estimation *e,
                                              uint32_t *size)
{
    static tandawire_estimator ours, theirs; /* 50 KB each */
    if (!estimate_read(&theirs, in, length))
        return "no estimator";
    uint32_t refusal = tandawire_estimator_make(&ours, table, table_length);
    if (refusal)
        return tandawire_refusal_text(refusal);
    *e = tandawire_estimator_compare(&ours, &theirs);
    if (e->refusal)
        return tandawire_refusal_text(e->refusal);
    uint64_t both = table_length / TANDAWIRE_HASH_BYTES + tandawire_estimator_elements(&theirs);
    *size = e->known ? tandawire_size_for(*e, times) : tandawire_size_for(tandawire_known(both), times > 3 ? times - 1 : 2);
    return NULL;
}

#endif
