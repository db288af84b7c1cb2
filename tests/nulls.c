/* Null with length 0 for every slice of every call: all at once, and in a step and a reading one by one. Compiles as C11 and as C++17; silent, exit 0, if all
 * is answered as it should be. Run under the sanitizers and valgrind too (tests/memory). */
#include "expect.h"

enum { PLACES = TANDAWIRE_SESSION_PLACES, SLICES = 12 };

static uint8_t table[2 * TANDAWIRE_HASH_BYTES], records[TANDAWIRE_RECORDS_BYTES], marks[TANDAWIRE_MARKS_BYTES], out[TANDAWIRE_OUT_BYTES], filter[1024],
    hash[TANDAWIRE_HASH_BYTES];
static uint64_t inquired[PLACES], ids[PLACES], ours[PLACES], theirs[PLACES];
static uint32_t hashes[PLACES];
static int64_t counts[PLACES];

/* A step with the slice of that number, in the order of the parameters, null; none for -1, all for SLICES. */
static tandawire_stepped step_without(tandawire_numbers numbers, int without, size_t message_length)
{
    size_t n[SLICES] = {sizeof table, sizeof records, sizeof marks, PLACES, PLACES, PLACES, PLACES, PLACES, PLACES, sizeof hash, message_length, sizeof out};
    for (int i = 0; i < SLICES; i++)
        if (without == i || without == SLICES)
            n[i] = 0;
    return tandawire_step(numbers, n[0] ? table : NULL, n[0], n[1] ? records : NULL, n[1], n[2] ? marks : NULL, n[2], n[3] ? inquired : NULL, n[3],
                          n[4] ? ids : NULL, n[4], n[5] ? hashes : NULL, n[5], n[6] ? counts : NULL, n[6], n[7] ? ours : NULL, n[7],
                          n[8] ? theirs : NULL, n[8], n[9] ? hash : NULL, n[9], n[10] ? filter : NULL, n[10], n[11] ? out : NULL, n[11]);
}

static void expect_steps(void)
{
    tandawire_stepped s = tandawire_start_sender(table, sizeof table, 37, 0, marks, sizeof marks, out, sizeof out);
    expect("sender", s.refusal, 0);
    size_t length = s.sent;
    memcpy(filter, out, length);
    s = tandawire_start_receiver(table, sizeof table, marks, sizeof marks);
    expect("step, the empty table", step_without(s.next, 0, length).refusal, TANDAWIRE_REFUSED_NONE);
    for (int i = 1; i < SLICES; i++)
        expect("step, one slice null", step_without(s.next, i, length).refusal, i == 10 ? TANDAWIRE_REFUSED_MALFORMED : TANDAWIRE_REFUSED_ROOM);
    expect("step, all null", step_without(s.next, SLICES, length).refusal, TANDAWIRE_REFUSED_ROOM);
    expect("step, none null", step_without(s.next, -1, length).refusal, TANDAWIRE_REFUSED_NONE);
}

static void expect_readings(void)
{
    const size_t n = 37;
    expect("read, none null", tandawire_read(NULL, 0, ids, n, hashes, n, counts, n, ours, n, theirs, n, 37, 0).refusal, 0);
    expect("read, ids", tandawire_read(NULL, 0, NULL, 0, hashes, n, counts, n, ours, n, theirs, n, 37, 0).refusal, TANDAWIRE_REFUSED_ROOM);
    expect("read, hashes", tandawire_read(NULL, 0, ids, n, NULL, 0, counts, n, ours, n, theirs, n, 37, 0).refusal, TANDAWIRE_REFUSED_ROOM);
    expect("read, counts", tandawire_read(NULL, 0, ids, n, hashes, n, NULL, 0, ours, n, theirs, n, 37, 0).refusal, TANDAWIRE_REFUSED_ROOM);
    expect("read, ours", tandawire_read(NULL, 0, ids, n, hashes, n, counts, n, NULL, 0, theirs, n, 37, 0).refusal, TANDAWIRE_REFUSED_ROOM);
    expect("read, theirs", tandawire_read(NULL, 0, ids, n, hashes, n, counts, n, ours, n, NULL, 0, 37, 0).refusal, TANDAWIRE_REFUSED_ROOM);
    expect("read, all", tandawire_read(NULL, 0, NULL, 0, NULL, 0, NULL, 0, NULL, 0, NULL, 0, 37, 0).refusal, TANDAWIRE_REFUSED_ROOM);
    expect("read, all, of no size", tandawire_read(NULL, 0, NULL, 0, NULL, 0, NULL, 0, NULL, 0, NULL, 0, 0, 0).refusal, TANDAWIRE_REFUSED_RANGE);
}

static void expect_others(void)
{
    expect("build", tandawire_build(NULL, 0, NULL, 0, NULL, 0, NULL, 0, 37, 0), TANDAWIRE_REFUSED_ROOM);
    expect("build, the empty table", tandawire_build(NULL, 0, ids, 37, hashes, 37, counts, 37, 37, 0), TANDAWIRE_REFUSED_NONE);
    expect("estimator", tandawire_estimator_build(NULL, 0, NULL, 0, NULL, 0, NULL, 0), TANDAWIRE_REFUSED_ROOM);
    expect("estimate", tandawire_estimate(NULL, 0, NULL, 0, NULL, 0, NULL, 0, NULL, 0, NULL, 0).refusal, TANDAWIRE_REFUSED_ROOM);
    expect("message", tandawire_message_read(NULL, 0).kind, TANDAWIRE_MALFORMED);
    expect("message, refusal", tandawire_message_read(NULL, 0).refusal, TANDAWIRE_REFUSED_MALFORMED);
    expect("walk", tandawire_message_at(NULL, 0, 0).kind, TANDAWIRE_END);
    expect("walk, refusal", tandawire_message_at(NULL, 0, 0).refusal, TANDAWIRE_REFUSED_NONE);
    expect("walk, past the end", tandawire_message_at(NULL, 0, 9).kind, TANDAWIRE_END);
    expect("element, no room", tandawire_element_write(hash, 1, NULL, 0, 0).refusal, TANDAWIRE_REFUSED_ROOM);
    expect("element, no content", tandawire_element_write(NULL, 0, out, sizeof out, 0).refusal, TANDAWIRE_REFUSED_MALFORMED);
    expect("filter", tandawire_filter_write(NULL, 0, NULL, 0, NULL, 0, 37, 0, NULL, 0, 0).refusal, TANDAWIRE_REFUSED_ROOM);
    expect("filter, no buffer", tandawire_filter_write(ids, 37, hashes, 37, counts, 37, 37, 0, NULL, 0, 0).refusal, TANDAWIRE_REFUSED_ROOM);
    expect("lay, no message", tandawire_filter_lay(NULL, 0, ids, 37, hashes, 37, counts, 37), TANDAWIRE_REFUSED_MALFORMED);
    size_t length = tandawire_filter_write(ids, 37, hashes, 37, counts, 37, 37, 0, filter, sizeof filter, 0).next;
    expect("lay, no columns", tandawire_filter_lay(filter, length, NULL, 0, NULL, 0, NULL, 0), TANDAWIRE_REFUSED_ROOM);
    expect("receiver", tandawire_start_receiver(NULL, 0, NULL, 0).refusal, TANDAWIRE_REFUSED_ROOM);
    expect("receiver, the empty table", tandawire_start_receiver(NULL, 0, marks, sizeof marks).refusal, TANDAWIRE_REFUSED_NONE);
    expect("sender", tandawire_start_sender(NULL, 0, 37, 0, NULL, 0, NULL, 0).refusal, TANDAWIRE_REFUSED_ROOM);
    expect("sender, the empty table", tandawire_start_sender(NULL, 0, 37, 0, marks, sizeof marks, out, sizeof out).refusal, TANDAWIRE_REFUSED_NONE);
}

int main(void)
{
    test = "nulls";
    put_table(table, 1, 2);
    expect_steps();
    expect_readings();
    expect_others();
    return 0;
}
