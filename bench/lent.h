/* The columns that are lent to the building of an estimator and to an estimate, by the library (side 0)
 * and by plain C (side 1), and whether both answer alike and leave the same. */
#ifndef TANDAWIRE_LENT_H
#define TANDAWIRE_LENT_H

#include "../include/tandawire.h"
#include "estimator.h"
#include "tables.h"

static struct tables tables;

/* With some places behind, which no call may touch. */
enum { ROOM = PLACES + 8 };

struct columns {
    uint64_t ids[ROOM];
    int64_t counts[ROOM];
    uint32_t hashes[ROOM];
};

/* What is lent to an estimate. A building gets the first columns alone. */
struct lent {
    struct columns first, second;
};

static const struct side {
    uint32_t (*build)(const uint8_t *, size_t, uint64_t *, size_t, uint32_t *, size_t, int64_t *,
                      size_t);
    tandawire_estimation (*estimate)(uint64_t *, size_t, uint32_t *, size_t, int64_t *, size_t,
                                     const uint64_t *, size_t, const uint32_t *, size_t,
                                     const int64_t *, size_t);
} sides[2] = {{tandawire_estimator_build, tandawire_estimate}, {c_estimator_build, c_estimate}};

/* The columns given, and what each side leaves of them. */
static struct lent given, left[2];

/* The length each slice is said to have: IDs, hashes and counts of the first and the second. */
static const size_t whole[6] = {ROOM, ROOM, ROOM, ROOM, ROOM, ROOM};

static uint32_t build(int side, const uint8_t *table, size_t length, struct columns *c,
                      const size_t room[6])
{
    return sides[side].build(table, length, c->ids, room[0], c->hashes, room[1], c->counts,
                             room[2]);
}

static tandawire_estimation estimate(int side, struct lent *l, const size_t room[6])
{
    struct columns *a = &l->first, *b = &l->second;
    return sides[side].estimate(a->ids, room[0], a->hashes, room[1], a->counts, room[2], b->ids,
                                room[3], b->hashes, room[4], b->counts, room[5]);
}

/* Noise everywhere, then our estimator and theirs in the columns, by the C. */
static void receive(void)
{
    memset(&given, 0xA5, sizeof given);
    build(1, tables.ours, tables.ours_length, &given.first, whole);
    build(1, tables.theirs, tables.theirs_length, &given.second, whole);
}

/* ---- What both sides answer ---- */

/* Whether both sides answer the building of our table so, and leave the same. */
static int builds(const size_t room[6], uint32_t refusal)
{
    for (int i = 0; i < 2; i++) {
        left[i] = given;
        if (build(i, tables.ours, tables.ours_length, &left[i].first, room) != refusal)
            return 0;
    }
    return memcmp(&left[0], &left[1], sizeof left[0]) == 0 &&
           (refusal == 0 || memcmp(&left[0], &given, sizeof given) == 0);
}

/* Whether both sides answer an estimate alike and leave the same, the second as it was and, if
 * they refuse, everything. */
static int agree(const size_t room[6], tandawire_estimation *answer)
{
    tandawire_estimation a[2];
    for (int i = 0; i < 2; i++) {
        left[i] = given;
        a[i] = estimate(i, &left[i], room);
    }
    *answer = a[0];
    return memcmp(&left[0], &left[1], sizeof left[0]) == 0 && a[0].refusal == a[1].refusal &&
           a[0].known == a[1].known && a[0].estimate == a[1].estimate &&
           memcmp(&left[0].second, &given.second, sizeof given.second) == 0 &&
           (a[0].refusal == 0 || memcmp(&left[0], &given, sizeof given) == 0);
}

/* The same with the answer given: a refusal, or a difference that is known. */
static int answers(const size_t room[6], uint32_t refusal, uint64_t estimate)
{
    tandawire_estimation a;
    return agree(room, &a) && a.refusal == refusal && a.known == (refusal == 0) &&
           a.estimate == estimate;
}

/* The same where it is unknown. */
static int is_unknown(void)
{
    tandawire_estimation a;
    return agree(whole, &a) && a.refusal == 0 && a.known == 0 && a.estimate == 0;
}

#endif
