/* Building and reading a filter by the library, and by plain C beside it. How it is used stands
 * in jobs.h.
 *
 * Both sides get the same memory and do all of the work: the form of what they are given, the
 * CRC tables (made in each call), and for a reading our filter, the peels and the table test.
 */
#define _POSIX_C_SOURCE 199309L
#include "jobs.h"

#include "../include/tandawire.h"
#include "baseline.h"
#include "longest.h"
#include "row.h"
#include "tables.h"

/* ---- The tables and columns of a job or a check ---- */

static struct tables tables;

/* What is lent to a call: columns and lists. */
struct lent {
    uint64_t ids[MOST], ours[MOST], theirs[MOST];
    int64_t counts[MOST];
    uint32_t hashes[MOST];
};

static const struct side {
    uint32_t (*build)(const uint8_t *, size_t, uint64_t *, size_t, uint32_t *, size_t, int64_t *,
                      size_t, uint32_t, uint32_t);
    tandawire_reading (*read)(const uint8_t *, size_t, uint64_t *, size_t, uint32_t *, size_t,
                              int64_t *, size_t, uint64_t *, size_t, uint64_t *, size_t,
                              uint32_t, uint32_t);
} sides[2] = {{tandawire_build, tandawire_read}, {c_build, c_read}};

/* The columns received, and what each side leaves of them. */
static struct lent given, left[2];

/* The length each slice is said to have: IDs, hashes, counts, ours, theirs. */
static const size_t whole[5] = {MOST, MOST, MOST, MOST, MOST};

static uint32_t build(int side, const uint8_t *table, size_t length, struct lent *l,
                      const size_t room[5], uint32_t size, uint32_t salt)
{
    return sides[side].build(table, length, l->ids, room[0], l->hashes, room[1], l->counts,
                             room[2], size, salt);
}

static tandawire_reading read_by(int side, struct lent *l, const size_t room[5], uint32_t size,
                                 uint32_t salt)
{
    return sides[side].read(tables.ours, tables.ours_length, l->ids, room[0], l->hashes, room[1],
                            l->counts, room[2], l->ours, room[3], l->theirs, room[4], size, salt);
}

/* ---- The check ---- */

/* How often each end was met: refusals by number, 0 for complete and 7 for stuck. */
enum { COMPLETE = 0, FALSE = 6, STUCK = 7, ENDS = 8 };
static unsigned met[ENDS];

/* Whether both sides answered the same and left the same. */
static int are_same(const tandawire_reading a[2])
{
    return memcmp(&left[0], &left[1], sizeof left[0]) == 0 && a[0].refusal == a[1].refusal &&
           a[0].complete == a[1].complete && a[0].ours == a[1].ours &&
           a[0].theirs == a[1].theirs && a[0].looked == a[1].looked;
}

/* The end that both sides come to, or -1 if they differ in the answer or in what they leave. */
static int end_of_reading(const size_t room[5], uint32_t size, uint32_t salt)
{
    tandawire_reading a[2];
    for (int i = 0; i < 2; i++) {
        left[i] = given;
        a[i] = read_by(i, &left[i], room, size, salt);
    }
    if (!are_same(a))
        return -1;
    int end = a[0].refusal != 0 ? (int)a[0].refusal : a[0].complete ? COMPLETE : STUCK;
    if (end < 0 || end >= ENDS)
        return -1;
    met[end]++;
    return end;
}

/* The same for the building of our table, over whatever was in the columns. */
static int end_of_building(const size_t room[5], uint32_t size, uint32_t salt)
{
    uint32_t a[2];
    for (int i = 0; i < 2; i++) {
        left[i] = given;
        a[i] = build(i, tables.ours, tables.ours_length, &left[i], room, size, salt);
    }
    return memcmp(&left[0], &left[1], sizeof left[0]) == 0 && a[0] == a[1] ? (int)a[0] : -1;
}

/* Noise everywhere, then their filter in the first size places of the columns: by the C, so that a
 * library that writes behind them is seen. */
static void receive(uint32_t size, uint32_t salt)
{
    memset(&given, 0xA5, sizeof given);
    build(1, tables.theirs, tables.theirs_length, &given, whole, size, salt);
}

/* Puts an ID into the received columns with the count given. */
static void tamper(uint64_t id, int64_t count, uint32_t size, uint32_t salt)
{
    crc_tables t;
    make_tables(t);
    add(t, rotated_right(id, salt * 7), count, given.ids, given.hashes, given.counts, size);
}

/* Differences of either side and of both, from none to more than the filter holds. */
static int differences_agree(void)
{
    static const uint32_t sizes[] = {37, 64, 101, 512, 1000, 2048, 4093, 4096};
    static const uint32_t tenths[] = {0, 1, 3, 5, 7, 9};
    uint32_t salt = 0;
    for (size_t s = 0; s < sizeof sizes / sizeof sizes[0]; s++)
        for (size_t d = 0; d < sizeof tenths / sizeof tenths[0]; d++)
            for (int way = 0; way < 3; way++) {
                uint32_t size = sizes[s], number = size * tenths[d] / 10;
                uint32_t ours = way == 0 ? number : way == 1 ? 0 : number / 2;
                make(&tables, 100, ours, number - ours);
                salt = (salt + 5) % SALTS;
                receive(size, salt);
                if (end_of_building(whole, size, salt) != 0 ||
                    end_of_reading(whole, size, salt) < 0)
                    return 0;
            }
    return met[COMPLETE] > 0 && met[STUCK] > 0 && met[FALSE] > 0;
}

/* Filters no table makes: spoilt sums, both halves of the table test, and columns of noise. */
static int tampered_agree(void)
{
    const uint32_t size = 1000, salt = 9;
    make(&tables, 300, 20, 20);
    receive(size, salt);
    if (end_of_reading(whole, size, salt) != COMPLETE)
        return 0;
    /* Sums without a count are not zero. */
    given.ids[5] ^= 1;
    if (end_of_reading(whole, size, salt) != STUCK)
        return 0;
    given.ids[5] ^= 1;
    given.hashes[5] ^= 1;
    if (end_of_reading(whole, size, salt) != STUCK)
        return 0;
    given.hashes[5] ^= 1;
    tamper(id_at(tables.theirs, 7), 1, size, salt);
    if (end_of_reading(whole, size, salt) != FALSE)
        return 0;
    make(&tables, 4000, 20, 20);
    receive(size, salt);
    tamper(draw(), -1, size, salt);
    if (end_of_reading(whole, size, salt) != FALSE)
        return 0;
    /* The same, but stuck: then the table test is not made. */
    given.ids[5] ^= 1;
    if (end_of_reading(whole, size, salt) != STUCK)
        return 0;
    for (uint32_t b = 0; b < size; b++) {
        given.ids[b] = draw();
        given.hashes[b] = (uint32_t)draw();
        given.counts[b] = (int64_t)(draw() >> 32);
    }
    return end_of_reading(whole, size, salt) == STUCK;
}

/* As many peels as buckets, which may be made; one more; and an ID found again. A row is taken from
 * our own filter, so that it is the difference. */
static int rows_agree(void)
{
    static struct lent row;
    make(&tables, MOST, 0, 0);
    state = SEED;
    for (enum row_kind kind = PLAIN; kind < ROW_KINDS; kind++) {
        memset(&row, 0, sizeof row);
        make_row(row.ids, row.hashes, row.counts, kind);
        receive(BUCKETS, 0);
        for (int b = 0; b < BUCKETS; b++) {
            given.ids[b] ^= row.ids[b];
            given.hashes[b] ^= row.hashes[b];
            given.counts[b] -= row.counts[b];
        }
        if (end_of_reading(whole, BUCKETS, 0) != (kind == PLAIN ? STUCK : FALSE))
            return 0;
    }
    return 1;
}

/* Rooms one too short and just enough, and sizes and salts out of range. */
static int rooms_agree(uint32_t size, uint32_t salt)
{
    static const uint32_t bad_sizes[] = {0, 36, 4097, UINT32_MAX};
    size_t room[5];
    for (int i = 0; i < 5; i++) {
        memcpy(room, whole, sizeof room);
        room[i] = size - 1;
        if (end_of_reading(room, size, salt) != 2 || end_of_reading(room, size, SALTS) != 3 ||
            end_of_building(room, size, salt) != (i < 3 ? 2 : 0))
            return 0;
        room[i] = size;
        if (end_of_reading(room, size, salt) != COMPLETE)
            return 0;
    }
    for (int i = 0; i < 4; i++)
        if (end_of_reading(whole, bad_sizes[i], salt) < 0 ||
            end_of_building(whole, bad_sizes[i], salt) != 3)
            return 0;
    return end_of_building(whole, size, SALTS) == 3;
}

/* Tables that are none: of a broken length, too long, out of order, and with an ID shared. */
static int bad_tables_agree(uint32_t size, uint32_t salt)
{
    for (int i = 0; i < 4; i++) {
        make(&tables, i == 1 ? MOST - 9 : 200, 10, 0);
        receive(size, salt);
        tables.ours_length -= i == 0;
        if (i == 2)
            memcpy(tables.ours, tables.ours + 5 * HASH, HASH);
        if (i == 3)
            memcpy(tables.ours, tables.ours + HASH, 8);
        if (end_of_reading(whole, size, salt) != 1 || end_of_reading(whole, 36, salt) != 1 ||
            end_of_building(whole, size, salt) != 1 || end_of_building(whole, 36, salt) != 1)
            return 0;
    }
    return 1;
}

/* Each thing that is refused, and each pair of them where the order decides. */
static int refusals_agree(void)
{
    const uint32_t size = 500, salt = 3;
    make(&tables, 200, 10, 10);
    receive(size, salt);
    if (!rooms_agree(size, salt))
        return 0;
    given.counts[size] = -1;
    if (end_of_reading(whole, size, salt) != COMPLETE)
        return 0;
    for (int i = 0; i < 2; i++) {
        given.counts[size - 1] = i == 0 ? -1 : INT64_C(1) << 32;
        if (end_of_reading(whole, size, salt) != 1 || end_of_reading(whole, size, SALTS) != 1)
            return 0;
    }
    if (!bad_tables_agree(size, salt))
        return 0;
    make(&tables, 0, 0, 30);
    receive(size, salt);
    return end_of_reading(whole, size, salt) == COMPLETE && end_of_building(whole, size, 0) == 0;
}

/* ---- The jobs ---- */

/* Our table has all 4,096; theirs lacks some of them and has some of its own. */
#define BUILD(size, limit, goal)                                                               \
    {"build_" #size, "build 4096 in " #size, "tandawire_build", "c_build", size, 4096, 0, 0,   \
     limit, goal}
#define READ(ours, theirs, size, limit)                                                        \
    {"read_" #ours "_" #theirs "_" #size, "read " #ours " + " #theirs " at " #size,            \
     "tandawire_read", "c_read", size, 4096 - ours, ours, theirs, limit, 0}
/* Counted as a function of its own of the archive; the limits are of these two. */
#define PEEL(ours, size, limit)                                                                \
    {"peel_" #ours "_" #size, "of this filter::peeling::peel, " #ours " + 0",                  \
     "filter::peeling::peel", "c_peel", size, 4096 - ours, ours, 0, limit, 0}

/* Nothing is ours, and theirs is made to take long: columns of the longest reading found, and tables
 * whose IDs are alike in so many low bits. The field common has that number of bits; no element is
 * common. */
#define LONG(size, limit)                                                                      \
    {"read_longest_" #size, "read, the longest found at " #size, "tandawire_read", "c_read",   \
     size, 0, 0, 0, limit, 0}
#define ALIKE(bits, theirs, size, limit)                                                       \
    {"read_alike_" #bits, "read 0 + " #theirs " at " #size ", " #bits " bits alike",           \
     "tandawire_read", "c_read", size, bits, 0, theirs, limit, 0}

static const struct job jobs[] = {
    BUILD(4093, 750000, 0),        BUILD(4096, 750000, 0),
    READ(10, 0, 4093, 0),          READ(10, 0, 4096, 0),
    READ(100, 0, 4093, 0),         READ(100, 0, 4096, 0),
    READ(500, 0, 4093, 0),         READ(500, 0, 4096, 0),
    READ(1000, 0, 4093, 0),        READ(1000, 0, 4096, 1600000),
    PEEL(1000, 4096, 900000),      READ(2500, 0, 4093, 0),
    READ(2500, 0, 4096, 2400000),  PEEL(2500, 4096, 1600000),
    READ(5, 5, 4093, 0),           READ(5, 5, 4096, 0),
    READ(50, 50, 4093, 0),         READ(50, 50, 4096, 0),
    READ(250, 250, 4093, 0),       READ(250, 250, 4096, 0),
    READ(500, 500, 4093, 0),       READ(500, 500, 4096, 0),
    READ(1250, 1250, 4093, 0),     READ(1250, 1250, 4096, 0),
    LONG(4096, 2200000),           ALIKE(0, 3000, 4093, 1800000),
    ALIKE(12, 3000, 4093, 2100000),
    ALIKE(52, 3000, 4093, 3400000),
};
enum { JOBS = sizeof jobs / sizeof jobs[0] };

static int reads(const struct job *job)
{
    return strcmp(job->call, "tandawire_build") != 0;
}

/* Of a reading against the empty table. */
static int is_long(const struct job *job)
{
    return reads(job) && job->ours == 0;
}

/* Their elements, or none but columns that no table makes. */
static void prepare_long(const struct job *job, uint32_t salt)
{
    tables.ours_length = 0;
    tables.theirs_length = job->theirs * HASH;
    memset(tables.theirs, 0, sizeof tables.theirs);
    for (uint64_t i = 0; i < job->theirs; i++)
        for (int k = 0; k < 8; k++)
            tables.theirs[HASH * i + k] = (uint8_t)((i + 1) << job->common >> (56 - 8 * k));
    receive(job->size, salt);
    if (job->theirs == 0)
        make_longest(given.ids, given.hashes, given.counts);
}

/* One pair of tables at salts from 1. Seeded anew, so that a job is the same whatever ran before:
 * a reading of two sides may also end false. Their filter is built for a reading alone; a job
 * that builds must be counted without another building. */
static void prepare(const struct job *job, uint32_t salt)
{
    if (is_long(job)) {
        prepare_long(job, salt);
        return;
    }
    if (salt == 1) {
        state = SEED;
        make(&tables, job->common, job->ours, job->theirs);
    }
    memset(&given, 0, sizeof given);
    if (reads(job))
        receive(job->size, salt);
}

/* Whether the two sides answered and left the same, and the true difference where it is complete;
 * a difference of one side must be. */
static int is_done(const struct job *job, const tandawire_reading r[2])
{
    if (!are_same(r))
        return 0;
    if (is_long(job) && job->theirs == 0)
        return r[0].refusal == TANDAWIRE_REFUSED_FALSE && r[0].looked == LONGEST;
    if (r[0].complete)
        return r[0].refusal == 0 && r[0].ours == job->ours && r[0].theirs == job->theirs;
    return job->theirs > 0 && (r[0].refusal == 0 || r[0].refusal == TANDAWIRE_REFUSED_FALSE);
}

static double time_of(const struct job *job, int side, uint32_t salt)
{
    static tandawire_reading r[2];
    struct timespec a, b;
    left[side] = given;
    r[side] = (tandawire_reading){0, 1, job->ours, job->theirs, 0};
    clock_gettime(CLOCK_MONOTONIC, &a);
    if (reads(job))
        r[side] = read_by(side, &left[side], whole, job->size, salt);
    else
        r[side].refusal = build(side, tables.ours, tables.ours_length, &left[side], whole,
                                job->size, salt);
    clock_gettime(CLOCK_MONOTONIC, &b);
    if (side == 1 && !is_done(job, r))
        return -1;
    strcpy(answer, !reads(job) ? "-" : r[side].refusal ? "false" : r[side].complete ? "complete"
                                                                                    : "stuck");
    return nanoseconds(a, b);
}

/* ---- The whole check ---- */

/* Every input that may be measured, in whatever way its reading ends. */
static int jobs_agree(void)
{
    for (int i = 0; i < JOBS; i++)
        for (uint32_t salt = 1; salt <= TRIED; salt++) {
            prepare(&jobs[i], salt);
            for (int side = 0; side < 2; side++)
                if (time_of(&jobs[i], side, salt) < 0)
                    return 0;
        }
    return 1;
}

static int check(void)
{
    return differences_agree() && tampered_agree() && rows_agree() && refusals_agree() &&
           jobs_agree();
}

int main(int argc, char **argv)
{
    static const struct program program = {
        "filters", jobs, JOBS, INPUTS, check, prepare, time_of,
    };
    return run_program(&program, argc, argv);
}
