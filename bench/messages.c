/* Writing a filter as messages, reading them and laying them into columns, by the library and by plain C beside it. How it is used
 * stands in jobs.h. The C reads messages of filters alone.
 */
#define _POSIX_C_SOURCE 199309L
#include "jobs.h"

#include <assert.h>

#include "../include/tandawire.h"
#include "baseline.h"
#include "message.h"
#include "tables.h"

static struct tables tables;

struct lent {
    uint64_t ids[MOST];
    int64_t counts[MOST];
    uint32_t hashes[MOST];
};

static const struct side {
    tandawire_written (*write)(const uint64_t *, size_t, const uint32_t *, size_t, const int64_t *, size_t, uint32_t, uint32_t, uint8_t *, size_t,
                               size_t);
    uint32_t (*lay)(const uint8_t *, size_t, uint64_t *, size_t, uint32_t *, size_t, int64_t *, size_t);
    tandawire_message (*read)(const uint8_t *, size_t);
} sides[2] = {{tandawire_filter_write, tandawire_filter_lay, tandawire_message_read}, {c_filter_write, c_filter_lay, c_message_read}};

/* The filter to be written, its messages by each side, and what each side lays of them. */
static struct lent given, laid[2];
static uint8_t sent[2][TANDAWIRE_MOST_FILTER_BYTES + 16];

static tandawire_written write_by(int side, uint32_t size, uint32_t salt, size_t room, size_t at)
{
    return sides[side].write(given.ids, MOST, given.hashes, MOST, given.counts, MOST, size, salt, sent[side], room, at);
}

static uint32_t lay_by(int side, const uint8_t *message, size_t length, size_t room)
{
    return sides[side].lay(message, length, laid[side].ids, room, laid[side].hashes, room, laid[side].counts, room);
}

/* ---- The check ---- */

static void fill(uint32_t width)
{
    for (size_t i = 0; i < MOST; i++) {
        given.ids[i] = draw();
        given.hashes[i] = (uint32_t)draw();
        given.counts[i] = (int64_t)(draw() >> (64 - width));
    }
}

static int is_slice(tandawire_message m)
{
    return m.kind == TANDAWIRE_IBF || m.kind == TANDAWIRE_IBF_LAST;
}

/* Whether both sides read a message alike, where one of them takes it for a slice of a filter. */
static int read_alike(const uint8_t *message, size_t length)
{
    tandawire_message a = tandawire_message_read(message, length), b = c_message_read(message, length);
    return (!is_slice(a) && !is_slice(b)) ||
           (a.refusal == b.refusal && a.kind == b.kind && a.size == b.size && a.offset == b.offset && a.salt == b.salt && a.width == b.width &&
            a.count == b.count && a.start == b.start && a.next == b.next);
}

/* Whether both sides read and lay a message alike; answers the refusal, or -1. */
static int laid_alike(const uint8_t *message, size_t length, size_t room)
{
    uint32_t a[2];
    if (!read_alike(message, length))
        return -1;
    for (int side = 0; side < 2; side++) {
        memset(&laid[side], 0xA5, sizeof laid[side]);
        a[side] = lay_by(side, message, length, room);
    }
    return a[0] == a[1] && memcmp(&laid[0], &laid[1], sizeof laid[0]) == 0 ? (int)a[0] : -1;
}

/* Every message of a filter, whole and with one bit changed in each of its first bytes and its last. */
static int messages_alike(size_t from, size_t to)
{
    static uint8_t copy[TANDAWIRE_MOST_FILTER_BYTES];
    while (from < to) {
        tandawire_message m = tandawire_message_at(sent[0], to, from);
        if (m.kind <= TANDAWIRE_END)
            return 0;
        size_t length = m.next - m.start;
        memcpy(copy, sent[0] + m.start, length);
        if (laid_alike(copy, length, MOST) != 0 || laid_alike(copy, length, m.offset + m.count - 1) != 2 || laid_alike(copy, length - 1, MOST) != 4)
            return 0;
        for (size_t i = 0; i <= HEAD; i++)
            for (int bit = 0; bit < 8; bit++) {
                size_t at = i < HEAD ? i : length - 1;
                copy[at] ^= (uint8_t)(1 << bit);
                if (laid_alike(copy, length, MOST) < 0)
                    return 0;
                copy[at] ^= (uint8_t)(1 << bit);
            }
        from = m.next;
    }
    return 1;
}

static int check(void)
{
    static const uint32_t sizes[] = {36, 37, 38, 512, 2519, 2520, 2521, 4095, 4096, 4097};
    for (uint32_t width = 1; width <= 33; width++)
        for (size_t s = 0; s < sizeof sizes / sizeof sizes[0]; s++) {
            size_t at = s % 3, room = sizeof sent[0];
            fill(width);
            for (int again = 0; again < 2; again++) {
                tandawire_written a[2];
                memset(sent, 0x5A, sizeof sent);
                for (int side = 0; side < 2; side++)
                    a[side] = write_by(side, sizes[s], (uint32_t)(2 * width + s) % 65, room, at);
                if (a[0].refusal != a[1].refusal || a[0].next != a[1].next || memcmp(sent[0], sent[1], sizeof sent[0]) != 0)
                    return 0;
                if (a[0].refusal == 0 && !messages_alike(at, a[0].next))
                    return 0;
                /* Once more with one byte too few. */
                room = a[0].refusal == 0 ? a[0].next - 1 : room;
            }
        }
    return 1;
}

/* ---- The jobs ---- */

/* The filter of a table of 4,096 elements, whose counters are of width 4; and filters of that size with counters of other widths. */
static const struct job jobs[] = {
    {"write_4096", "write a filter of 4096, width 4", "tandawire_filter_write", "c_filter_write", 4096, 4096, 0, 0, 600000, 0},
    {"lay_4096", "lay both slices of 4096, width 4", "tandawire_filter_lay", "c_filter_lay", 4096, 4096, 0, 0, 900000, 0},
    {"read_4096", "read both slices of 4096 as messages", "tandawire_message_read", "c_message_read", 4096, 4096, 0, 0, 0, 0},
    {"write_1", "write a filter of 4096, width 1", "tandawire_filter_write", "c_filter_write", 4096, 0, 0, 0, 330000, 0},
    {"lay_1", "lay both slices of 4096, width 1", "tandawire_filter_lay", "c_filter_lay", 4096, 0, 0, 0, 330000, 0},
    {"write_9", "write a filter of 4096, width 9", "tandawire_filter_write", "c_filter_write", 4096, 0, 0, 0, 1100000, 0},
    {"lay_9", "lay both slices of 4096, width 9", "tandawire_filter_lay", "c_filter_lay", 4096, 0, 0, 0, 750000, 0},
    {"write_32", "write a filter of 4096, width 32", "tandawire_filter_write", "c_filter_write", 4096, 0, 0, 0, 3400000, 0},
    {"lay_32", "lay both slices of 4096, width 32", "tandawire_filter_lay", "c_filter_lay", 4096, 0, 0, 0, 2000000, 0},
};

/* What each of them does, and the width of its counters where they are drawn; 0 for a table's. */
enum kind { WRITE, LAY, READ };
static const struct part {
    enum kind kind;
    uint32_t width;
} parts[] = {{WRITE, 0}, {LAY, 0}, {READ, 0}, {WRITE, 1}, {LAY, 1}, {WRITE, 9}, {LAY, 9}, {WRITE, 32}, {LAY, 32}};
static_assert(sizeof parts / sizeof parts[0] == sizeof jobs / sizeof jobs[0], "a part for each job");

static struct part part_of(const struct job *job)
{
    return parts[job - jobs];
}

/* Both slices are laid, or read; they end at first and at end. */
static int take(int side, int laying, size_t first, size_t end)
{
    const uint8_t *from = sent[side];
    if (laying)
        return (lay_by(side, from, first, MOST) | lay_by(side, from + first, end - first, MOST)) == 0;
    return (int)(sides[side].read(from, first).kind == TANDAWIRE_IBF) & (int)(sides[side].read(from + first, end - first).kind == TANDAWIRE_IBF_LAST);
}

static double time_of(const struct job *job, int side, uint32_t salt)
{
    struct timespec a, b;
    if (part_of(job).kind == WRITE) {
        clock_gettime(CLOCK_MONOTONIC, &a);
        tandawire_written w = write_by(side, job->size, salt, sizeof sent[side], 0);
        clock_gettime(CLOCK_MONOTONIC, &b);
        return w.refusal == 0 ? nanoseconds(a, b) : -1;
    }
    /* Written by hand of C, so that the library's writing is not counted. */
    size_t end = c_filter_write(given.ids, MOST, given.hashes, MOST, given.counts, MOST, job->size, salt, sent[side], sizeof sent[side], 0).next;
    size_t first = get(sent[side], 2);
    clock_gettime(CLOCK_MONOTONIC, &a);
    int fine = take(side, part_of(job).kind == LAY, first, end);
    clock_gettime(CLOCK_MONOTONIC, &b);
    if (part_of(job).kind == LAY && memcmp(&laid[side], &given, sizeof given) != 0)
        return -1;
    return fine ? nanoseconds(a, b) : -1;
}

static void prepare(const struct job *job, uint32_t salt)
{
    uint32_t width = part_of(job).width;
    if (width > 0) {
        state = SEED + salt;
        fill(width);
        given.counts[0] |= (int64_t)1 << (width - 1);
        return;
    }
    if (salt == 1) {
        state = SEED;
        make(&tables, job->common, job->ours, job->theirs);
    }
    memset(&given, 0, sizeof given);
    c_build(tables.ours, tables.ours_length, given.ids, MOST, given.hashes, MOST, given.counts, MOST, job->size, salt);
}

int main(int argc, char **argv)
{
    static const struct program program = {
        "messages", jobs, sizeof jobs / sizeof jobs[0], INPUTS, check, prepare, time_of,
    };
    return run_program(&program, argc, argv);
}
