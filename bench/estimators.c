/* Building an estimator and estimating by the library, and by plain C beside it. How it is used
 * stands in jobs.h.
 *
 * Both sides get the same memory and do all of the work: the form of what they are given, the
 * CRC tables (made in each call), the subtraction and the peels.
 */
#define _POSIX_C_SOURCE 199309L
#include "jobs.h"

#include "lent.h"
#include "row.h"

/* ---- The check ---- */

static crc_tables t;

/* Clears up to 32 low bits of each ID, the same ones in both tables: all strata are met. */
static void deepen(uint8_t *table, size_t length)
{
    for (uint8_t *hash = table; hash < table + length; hash += HASH)
        for (int bit = 0; bit < hash[8] % 33; bit++)
            hash[7 - bit / 8] &= (uint8_t)~(1 << bit % 8);
}

/* Differences of either side and of both, from none to all; as they come, and in all strata. */
static int differences_agree(void)
{
    static const size_t differences[] = {0,   1,   2,   5,   10,   20,   40,
                                         100, 200, 500, 1000, 2000, 4096};
    unsigned exact = 0, other = 0, none = 0;
    for (size_t i = 0; i < 3 * sizeof differences / sizeof differences[0]; i++)
        for (int again = 0; again < 8; again++) {
            size_t d = differences[i / 3], ours = i % 3 == 0 ? d : i % 3 == 1 ? 0 : d / 2;
            size_t more = ours > d - ours ? ours : d - ours;
            tandawire_estimation a;
            make(&tables, again < 2 ? MOST - more : 0, ours, d - ours);
            if (again % 2 == 1) {
                deepen(tables.ours, tables.ours_length);
                deepen(tables.theirs, tables.theirs_length);
            }
            receive();
            if (!builds(whole, 0) || !agree(whole, &a) || a.refusal != 0 ||
                (d < 3 && a.estimate != d) || (a.known && a.estimate == 0) != (d == 0))
                return 0;
            exact += a.known && a.estimate == d;
            none += !a.known;
            other += a.known && a.estimate != d;
        }
    /* ID 0 is one as any other, in stratum 31. */
    make(&tables, 0, 1, 0);
    memset(tables.ours, 0, 8);
    receive();
    return exact > 0 && none > 0 && other > 0 && builds(whole, 0) && answers(whole, 0, 1);
}

/* Puts an ID in its places in a stratum, its own or another; or in the first of them alone. */
static void plant(struct columns *c, uint32_t stratum, uint64_t id, int alone)
{
    uint32_t crc = crc_of(t, id);
    uint16_t places[3];
    places_of(t, crc, BUCKETS, places);
    for (int k = 0; k < (alone ? 1 : 3); k++) {
        uint32_t at = BUCKETS * stratum + places[k];
        c->ids[at] ^= id;
        c->hashes[at] ^= crc;
        c->counts[at]++;
    }
}

static int stratum_is_zero(const struct columns *c, uint32_t stratum)
{
    uint32_t from = BUCKETS * stratum;
    return is_zero(c->ids + from, c->hashes + from, c->counts + from, BUCKETS);
}

/* Whether both sides are stuck at stratum 3, with three IDs listed above it. */
static int stuck_at_3(void)
{
    return answers(whole, 0, 48) && !stratum_is_zero(&left[0].first, 3);
}

/* Something left in stratum 3, in one column alone. */
static int one_column_agrees(void)
{
    struct columns *c = &given.first;
    const uint32_t at = 3 * BUCKETS + 5;
    c->ids[at] ^= 1;
    if (!stuck_at_3())
        return 0;
    c->ids[at] ^= 1;
    c->hashes[at] ^= 1;
    if (!stuck_at_3())
        return 0;
    c->hashes[at] ^= 1;
    for (int i = 0; i < 2; i++) {
        /* Counts as far apart as they may be. */
        c = i == 0 ? &given.first : &given.second;
        int64_t count = c->counts[at];
        c->counts[at] = UINT32_MAX;
        if (!stuck_at_3())
            return 0;
        c->counts[at] = count;
    }
    return 1;
}

/* Equal estimators but for one stratum, stuck or false, the second time with an ID above it. */
static int first_to_fail_agrees(uint32_t stratum, int falsely)
{
    receive();
    if (falsely)
        plant(&given.second, stratum, draw(), 1);
    else
        given.first.counts[BUCKETS * stratum] += 2;
    if (!is_unknown() || stratum_is_zero(&left[0].first, stratum) != falsely)
        return 0;
    if (stratum + 1 == STRATA)
        return 1;
    plant(&given.first, stratum + 1, draw(), 0);
    return answers(whole, 0, UINT64_C(2) << stratum);
}

static int unknown_agree(void)
{
    make(&tables, 300, 0, 0);
    for (uint32_t stratum = 0; stratum < STRATA; stratum++)
        if (!first_to_fail_agrees(stratum, 0) || !first_to_fail_agrees(stratum, 1))
            return 0;
    return 1;
}

/* Estimators no table makes, each with its answer. */
static int tampered_agree(void)
{
    uint64_t id = draw();
    make(&tables, 300, 0, 0);
    receive();
    if (!answers(whole, 0, 0))
        return 0;
    /* One ID in several strata, none of them its own, once as theirs. */
    plant(&given.first, 31, id, 0);
    plant(&given.first, 20, id, 0);
    plant(&given.second, 7, id, 0);
    if (!answers(whole, 0, 3))
        return 0;
    if (!one_column_agrees())
        return 0;
    /* A lone ID is listed again at its other places: false, left zero; stratum 2 is not read. */
    plant(&given.second, 3, draw(), 1);
    plant(&given.second, 2, draw(), 0);
    if (!answers(whole, 0, 48) || !stratum_is_zero(&left[0].first, 3) ||
        stratum_is_zero(&left[0].first, 2))
        return 0;
    /* An estimate of more than 32 bits; then nothing above that could be listed. */
    plant(&given.first, 31, draw(), 0);
    plant(&given.first, 31, draw(), 0);
    plant(&given.first, 30, draw(), 1);
    if (!answers(whole, 0, UINT64_C(3) << 31))
        return 0;
    plant(&given.second, 31, draw(), 1);
    return is_unknown();
}

/* Honest estimators spoilt at random, with few and with many changes, and columns of noise. */
static int spoilt_agree(void)
{
    tandawire_estimation a;
    for (int i = 0; i < 400; i++) {
        make(&tables, 20, 10, 10);
        receive();
        for (int n = 0; n < 1 << i % 12; n++) {
            struct columns *c = draw() % 2 == 0 ? &given.first : &given.second;
            uint32_t at = (uint32_t)(draw() % PLACES);
            switch (draw() % 8) {
            case 0: c->ids[at] ^= draw(); break;
            case 1: c->hashes[at] ^= (uint32_t)draw(); break;
            case 2: c->counts[at] = (int64_t)(draw() >> 32); break;
            default: plant(c, at / BUCKETS, draw(), draw() % 2 == 0);
            }
        }
        if (!agree(whole, &a) || a.refusal != 0)
            return 0;
    }
    for (uint32_t b = 0; b < PLACES; b++) {
        given.first.ids[b] = draw();
        given.first.hashes[b] = (uint32_t)draw();
        given.first.counts[b] = (int64_t)(draw() >> 32);
    }
    return is_unknown();
}

/* As many peels in a stratum as buckets, which may be made; one more; and an ID found again. */
static int rows_agree(void)
{
    const uint32_t stratum = 6, from = BUCKETS * stratum;
    struct columns *c = &given.first;
    state = SEED;
    for (enum row_kind kind = PLAIN; kind < ROW_KINDS; kind++) {
        memset(&given, 0, sizeof given);
        for (uint32_t at = 0; at < PLACES; at++)
            given.first.counts[at] = given.second.counts[at] = 100;
        plant(c, 9, draw(), 0);
        make_row(c->ids + from, c->hashes + from, c->counts + from, kind);
        if (!answers(whole, 0, 128) || stratum_is_zero(&left[0].first, stratum) != (kind != PLAIN))
            return 0;
    }
    return 1;
}

/* Buffers one too short, with and without a COUNT out of range, and just enough. */
static int rooms_agree(void)
{
    size_t room[6];
    for (int i = 0; i < 6; i++) {
        memcpy(room, whole, sizeof room);
        room[i] = PLACES - 1;
        if (!answers(room, 2, 0) || !builds(room, i < 3 ? 2 : 0))
            return 0;
        /* The last COUNT is judged if it is said to be there. */
        for (int k = 0; k < 4; k++) {
            int64_t *last = (k < 2 ? given.first.counts : given.second.counts) + PLACES - 1;
            int64_t count = *last;
            *last = k % 2 == 0 ? -1 : INT64_C(1) << 32;
            if (!answers(room, i == (k < 2 ? 2 : 5) ? 2 : 1, 0) || !answers(whole, 1, 0))
                return 0;
            *last = count;
        }
        room[i] = PLACES;
        if (!answers(room, 0, 2) || !builds(room, 0))
            return 0;
    }
    return 1;
}

/* Each thing that is refused, and each pair of them where the order decides: the last table is
 * empty and good, those before are none. */
static int refusals_agree(void)
{
    size_t room[6] = {PLACES, ROOM, ROOM, ROOM, ROOM, ROOM};
    make(&tables, 200, 1, 1);
    receive();
    if (!rooms_agree())
        return 0;
    for (int i = 0; i < 5; i++) {
        make(&tables, i == 1 ? MOST - 9 : 200, 10, 0);
        tables.ours_length -= i == 0;
        if (i == 2)
            memcpy(tables.ours, tables.ours + 5 * HASH, HASH);
        if (i == 3)
            memcpy(tables.ours, tables.ours + HASH, 8);
        if (i == 4)
            tables.ours_length = 0;
        if (!builds(whole, i < 4) || !builds(room, i < 4))
            return 0;
        room[0] = PLACES - 1;
        if (!builds(room, i < 4 ? 1 : 2))
            return 0;
        room[0] = PLACES;
    }
    return 1;
}

static int check(void)
{
    make_tables(t);
    return differences_agree() && unknown_agree() && tampered_agree() && spoilt_agree() &&
           rows_agree() && refusals_agree();
}

/* ---- The jobs ---- */

/* The limits are those of the landing that brought each row, about a quarter above what was
 * measured then. */
#define ESTIMATE(ours, theirs, limit)                                                          \
    {"estimate_" #ours "_" #theirs, "estimate " #ours " + " #theirs, "tandawire_estimate",     \
     "c_estimate", 0, 4096 - ours, ours, theirs, limit, 0}
/* Equal tables, and something that no peel takes in the first place of a stratum. */
#define UNKNOWN(stratum, limit)                                                                \
    {"unknown_" #stratum, "estimate, unknown at stratum " #stratum, "tandawire_estimate",      \
     "c_estimate", 0, 4096, 0, 0, limit, 0}

static const struct job jobs[] = {
    {"build", "build the estimator of 4096", "tandawire_estimator_build", "c_estimator_build", 0,
     4096, 0, 0, 1000000, 0},
    ESTIMATE(0, 0, 200000),      ESTIMATE(5, 5, 210000),      ESTIMATE(50, 50, 260000),
    ESTIMATE(1000, 0, 230000),   ESTIMATE(500, 500, 250000),  ESTIMATE(4096, 4096, 235000),
    UNKNOWN(31, 150000),         UNKNOWN(0, 200000),
};

static int is_build(const struct job *job)
{
    return job == &jobs[0];
}

static uint32_t is_unknown_job(const struct job *job)
{
    return strncmp(job->name, "unknown_", strlen("unknown_")) == 0;
}

/* The C must answer what the library did. */
static double time_of(const struct job *job, int side, uint32_t n)
{
    static tandawire_estimation e[2];
    struct timespec a, b;
    (void)n;
    left[side] = given;
    clock_gettime(CLOCK_MONOTONIC, &a);
    if (is_build(job))
        e[side].refusal = build(side, tables.ours, tables.ours_length, &left[side].first,
                                     whole);
    else
        e[side] = estimate(side, &left[side], whole);
    clock_gettime(CLOCK_MONOTONIC, &b);
    if (e[side].refusal != 0 || (!is_build(job) && e[side].known == is_unknown_job(job)) ||
        (side == 1 && e[0].estimate != e[1].estimate))
        return -1;
    return nanoseconds(a, b);
}

/* Another pair of tables each time. Seeded anew, so that a job is the same whatever ran before.
 * Estimators are made for an estimate alone; the job build must be counted without another. */
static void prepare(const struct job *job, uint32_t n)
{
    if (n == 1)
        state = SEED;
    make(&tables, job->common, job->ours, job->theirs);
    memset(&given, 0, sizeof given);
    if (!is_build(job))
        receive();
    if (is_unknown_job(job))
        given.first.counts[BUCKETS * strtoul(job->name + strlen("unknown_"), NULL, 10)] += 2;
}

int main(int argc, char **argv)
{
    static const struct program program = {
        "estimators", jobs, sizeof jobs / sizeof jobs[0], INPUTS, check, prepare, time_of,
    };
    return run_program(&program, argc, argv);
}
