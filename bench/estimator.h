/* Building an estimator and estimating in plain C, on top of the filters' in baseline.h: the
 * library is measured beside this, and held to it by `estimators check`. */
#ifndef TANDAWIRE_ESTIMATOR_H
#define TANDAWIRE_ESTIMATOR_H

#include "baseline.h"

enum { STRATA = 32, BUCKETS = 79, PLACES = STRATA * BUCKETS };

/* Trailing zero bits, at most 31. */
static inline uint32_t stratum_of(uint64_t id)
{
    return (uint32_t)__builtin_ctzll(id | UINT64_C(1) << (STRATA - 1));
}

uint32_t c_estimator_build(const uint8_t *table, size_t length, uint64_t *ids, size_t ids_room,
                           uint32_t *hashes, size_t hashes_room, int64_t *counts,
                           size_t counts_room)
{
    crc_tables t;
    if (!is_table(table, length))
        return 1;
    if (ids_room < PLACES || hashes_room < PLACES || counts_room < PLACES)
        return 2;
    make_tables(t);
    clear(ids, hashes, counts, PLACES);
    for (size_t i = 0; i < length / HASH; i++) {
        uint64_t id = id_at(table, i);
        uint32_t from = BUCKETS * stratum_of(id);
        add(t, id, 1, ids + from, hashes + from, counts + from, BUCKETS);
    }
    return 0;
}

/* Reads one stratum: how many IDs it lists, or -1 if it is not complete. */
static inline int read_stratum(struct reading *r, uint64_t *ids, uint32_t *hashes,
                               int64_t *counts)
{
    enum peel end;
    uint64_t id;
    int64_t count;
    size_t peels = 0;
    begin_reading(r, ids, hashes, counts, BUCKETS);
    while ((end = peel(r, peels, &id, &count)) == PEELED)
        peels++;
    if (end == PEELED_FALSELY) {
        clear(ids, hashes, counts, BUCKETS);
        return -1;
    }
    return is_zero(ids, hashes, counts, BUCKETS) ? (int)peels : -1;
}

tandawire_estimation c_estimate(uint64_t *ids, size_t ids_room, uint32_t *hashes,
                                size_t hashes_room, int64_t *counts, size_t counts_room,
                                const uint64_t *second_ids, size_t second_ids_room,
                                const uint32_t *second_hashes, size_t second_hashes_room,
                                const int64_t *second_counts, size_t second_counts_room)
{
    struct reading r;
    tandawire_estimation answer = {1, 0, 0};

    if (counts_are_wide(counts, counts_room, PLACES) ||
        counts_are_wide(second_counts, second_counts_room, PLACES))
        return answer;
    answer.refusal = 2;
    if (ids_room < PLACES || hashes_room < PLACES || counts_room < PLACES ||
        second_ids_room < PLACES || second_hashes_room < PLACES || second_counts_room < PLACES)
        return answer;
    answer.refusal = 0;
    answer.known = 1;

    for (size_t i = 0; i < PLACES; i++) {
        ids[i] ^= second_ids[i];
        hashes[i] ^= second_hashes[i];
        counts[i] -= second_counts[i];
    }
    prepare_reading(&r);
    for (uint32_t i = STRATA; i-- > 0;) {
        uint32_t from = BUCKETS * i;
        int listed = read_stratum(&r, ids + from, hashes + from, counts + from);
        if (listed < 0) {
            answer.known = answer.estimate > 0;
            answer.estimate <<= i + 1;
            break;
        }
        answer.estimate += (uint64_t)listed;
    }
    return answer;
}

#endif
