/* The constants of include/tandawire.h, held to what the compiled library does; tests/session.c has those of a session's memory, and the layout of every
 * struct. Compiles as C11 and as C++17; silent, exit 0, if all agree. */
#include "expect.h"

enum { ROOM = TANDAWIRE_MOST_SIZE + 1 };

static uint8_t table[(TANDAWIRE_MOST_ELEMENTS + 1) * TANDAWIRE_HASH_BYTES];
static uint64_t ids[ROOM], ours[ROOM], theirs[ROOM];
static uint32_t hashes[ROOM];
static int64_t counts[ROOM];

/* ---- Filters ---- */

static uint32_t build_filter(size_t bytes, size_t room, uint32_t size, uint32_t salt)
{
    return tandawire_build(table, bytes, ids, room, hashes, room, counts, room, size, salt);
}

static tandawire_reading read_filter(size_t bytes, size_t room, uint32_t size, uint32_t salt)
{
    return tandawire_read(table, bytes, ids, room, hashes, room, counts, room, ours, room, theirs, room, size, salt);
}

static void expect_builds(void)
{
    const size_t all = (size_t)TANDAWIRE_MOST_ELEMENTS * TANDAWIRE_HASH_BYTES;
    expect("build, most elements", build_filter(all, ROOM, TANDAWIRE_MOST_SIZE, 0), TANDAWIRE_REFUSED_NONE);
    expect("build, one element more", build_filter(all + TANDAWIRE_HASH_BYTES, ROOM, TANDAWIRE_MOST_SIZE, 0), TANDAWIRE_REFUSED_FORM);
    expect("build, a broken hash", build_filter(TANDAWIRE_HASH_BYTES + 1, ROOM, TANDAWIRE_MOST_SIZE, 0), TANDAWIRE_REFUSED_FORM);
    expect("build, least size", build_filter(all, ROOM, TANDAWIRE_LEAST_SIZE, 0), TANDAWIRE_REFUSED_NONE);
    expect("build, below it", build_filter(all, ROOM, TANDAWIRE_LEAST_SIZE - 1, 0), TANDAWIRE_REFUSED_RANGE);
    expect("build, above most size", build_filter(all, ROOM, TANDAWIRE_MOST_SIZE + 1, 0), TANDAWIRE_REFUSED_RANGE);
    expect("build, most salt", build_filter(all, ROOM, TANDAWIRE_LEAST_SIZE, TANDAWIRE_MOST_SALT), TANDAWIRE_REFUSED_NONE);
    expect("build, above it", build_filter(all, ROOM, TANDAWIRE_LEAST_SIZE, TANDAWIRE_MOST_SALT + 1), TANDAWIRE_REFUSED_RANGE);
    expect("build, short columns", build_filter(all, 100, 101, 0), TANDAWIRE_REFUSED_ROOM);
    expect("build, null for nothing", tandawire_build(NULL, 0, NULL, 0, NULL, 0, NULL, 0, TANDAWIRE_LEAST_SIZE, 0), TANDAWIRE_REFUSED_ROOM);
}

static void expect_readings(void)
{
    const size_t hash_bytes = TANDAWIRE_HASH_BYTES;

    /* Ours are the IDs 0 to 3, the far end's 2 to 8: each list has its own, and another number of them. */
    expect("build, theirs", tandawire_build(table + 2 * hash_bytes, 7 * hash_bytes, ids, ROOM, hashes, ROOM, counts, ROOM, 101, 9), TANDAWIRE_REFUSED_NONE);
    tandawire_reading r = read_filter(4 * hash_bytes, ROOM, 101, 9);
    expect("read, refusal", r.refusal, TANDAWIRE_REFUSED_NONE);
    expect("read, complete", r.complete, 1);
    expect("read, ours", r.ours, 2);
    expect("read, theirs", r.theirs, 5);
    expect("read, looked", r.looked, 439);
    expect_listed("read, the list ours", ours, 101, 0, 2);
    expect_listed("read, the list theirs", theirs, 101, 4, 5);

    /* A filter that takes one of them as theirs and not ours contradicts the table. */
    expect("build, one", build_filter(hash_bytes, ROOM, 101, 0), TANDAWIRE_REFUSED_NONE);
    for (size_t i = 0; i < 101; i++) {
        counts[i] *= 2;
        ids[i] = 0;
        hashes[i] = 0;
    }
    r = read_filter(hash_bytes, ROOM, 101, 0);
    expect("read, refusal of a false one", r.refusal, TANDAWIRE_REFUSED_FALSE);
    expect("read, nothing listed then", r.ours + r.theirs + r.complete, 0);
    expect("read, looked then", r.looked, 184);
    counts[0] = -1;
    r = read_filter(0, ROOM, 101, 0);
    expect("read, a count below 0", r.refusal, TANDAWIRE_REFUSED_FORM);
    expect("read, nothing looked at then", r.looked, 0);
    counts[0] = 0;
    r = read_filter(0, ROOM, 101, 0);
    expect("read, nothing differs", r.complete, 1);
    expect("read, one look over all", r.looked, 101);
    expect("read, short lists", tandawire_read(table, 0, ids, 101, hashes, 101, counts, 101, ours, 100, theirs, 101, 101, 0).refusal, TANDAWIRE_REFUSED_ROOM);
}

/* ---- Estimators ---- */

static uint64_t second_ids[ROOM];
static uint32_t second_hashes[ROOM];
static int64_t second_counts[ROOM];

static uint32_t build_estimator(size_t bytes, size_t room)
{
    return tandawire_estimator_build(table, bytes, ids, room, hashes, room, counts, room);
}

static tandawire_estimation estimate(size_t room, size_t second_room)
{
    return tandawire_estimate(ids, room, hashes, room, counts, room, second_ids, second_room, second_hashes, second_room, second_counts,
                              second_room);
}

/* How many elements the places of a stratum count, three places each. */
static size_t elements_of(int stratum)
{
    int64_t sum = 0;
    for (int i = 0; i < TANDAWIRE_STRATUM_PLACES; i++)
        sum += counts[stratum * TANDAWIRE_STRATUM_PLACES + i];
    return (size_t)sum / 3;
}

static void expect_estimators(void)
{
    const size_t all = (size_t)TANDAWIRE_MOST_ELEMENTS * TANDAWIRE_HASH_BYTES, places = TANDAWIRE_ESTIMATOR_PLACES;

    expect("estimator, places", places, 2528);
    expect("estimator, a broken hash", build_estimator(TANDAWIRE_HASH_BYTES + 1, ROOM), TANDAWIRE_REFUSED_FORM);
    expect("estimator, short columns", build_estimator(all, places - 1), TANDAWIRE_REFUSED_ROOM);
    expect("estimator, null for nothing", tandawire_estimator_build(NULL, 0, NULL, 0, NULL, 0, NULL, 0), TANDAWIRE_REFUSED_ROOM);
    for (size_t i = 0; i < ROOM; i++)
        counts[i] = 7;
    expect("estimator, just enough room", build_estimator(4 * TANDAWIRE_HASH_BYTES, ROOM), TANDAWIRE_REFUSED_NONE);
    expect("estimator, what lies behind", (size_t)counts[places], 7);
    /* The IDs 0 to 3: 1 and 3 in stratum 0, 2 in stratum 1, 0 in the last. */
    expect("estimator, stratum 0", elements_of(0), 2);
    expect("estimator, stratum 1", elements_of(1), 1);
    expect("estimator, stratum 2", elements_of(2), 0);
    expect("estimator, the last stratum", elements_of(TANDAWIRE_STRATA - 1), 1);

    /* Two elements of ours that the second lacks. */
    memcpy(second_ids, ids, sizeof ids);
    memcpy(second_hashes, hashes, sizeof hashes);
    memcpy(second_counts, counts, sizeof counts);
    expect("estimator, two more", build_estimator(6 * TANDAWIRE_HASH_BYTES, places), TANDAWIRE_REFUSED_NONE);
    tandawire_estimation e = estimate(places, places);
    expect("estimate, refusal", e.refusal, TANDAWIRE_REFUSED_NONE);
    expect("estimate, known", e.known, 1);
    expect("estimate", (size_t)e.estimate, 2);
    expect("estimate, short columns", estimate(places - 1, places).refusal, TANDAWIRE_REFUSED_ROOM);
    expect("estimate, short second", estimate(places, places - 1).refusal, TANDAWIRE_REFUSED_ROOM);
    second_counts[0] = -1;
    e = estimate(places, places);
    expect("estimate, a count below 0", e.refusal, TANDAWIRE_REFUSED_FORM);
    expect("estimate, not known then", e.known, 0);
    expect("estimate, none then", (size_t)e.estimate, 0);
}

/* Estimators of zeros but for a bucket of the first that no peel takes: nothing is known, whichever stratum it lies in. With an element above it, that
 * one is counted for the strata from there down. */
static void expect_unknown(void)
{
    const size_t places = TANDAWIRE_ESTIMATOR_PLACES;
    for (size_t stratum = 0; stratum < TANDAWIRE_STRATA; stratum++) {
        size_t at = stratum * TANDAWIRE_STRATUM_PLACES;
        expect("unknown, no elements", tandawire_estimator_build(NULL, 0, second_ids, places, second_hashes, places, second_counts, places), 0);
        expect("unknown, none either", build_estimator(0, places), 0);
        counts[at] = 2;
        tandawire_estimation e = estimate(places, places);
        expect("unknown, refusal", e.refusal, TANDAWIRE_REFUSED_NONE);
        expect("unknown", e.known, 0);
        expect("unknown, no number", (size_t)e.estimate, 0);
        expect("unknown, what is left", (size_t)counts[at], 2);
        /* The hash of zeros, an element of stratum 31. */
        expect("known, one element", build_estimator(TANDAWIRE_HASH_BYTES, places), 0);
        counts[at] = 2;
        e = estimate(places, places);
        expect("known, one above", e.known, stratum < TANDAWIRE_STRATA - 1);
        expect("known, the number", (size_t)e.estimate, stratum < TANDAWIRE_STRATA - 1 ? (size_t)2 << stratum : 0);
    }
}

/* ---- Messages ---- */

/* A buffer for the messages of a filter, and one byte more. */
static uint8_t buffer[TANDAWIRE_MOST_FILTER_BYTES + 1];

static tandawire_written write_filter(size_t room, uint32_t size, uint32_t salt)
{
    return tandawire_filter_write(ids, ROOM, hashes, ROOM, counts, ROOM, size, salt, buffer, room, 0);
}

static void expect_message(const char *what, tandawire_message m, uint32_t refusal, uint32_t kind, uint32_t size, uint32_t offset, uint32_t salt,
                           uint32_t width, size_t count, size_t start, size_t next)
{
    expect(what, m.refusal, refusal);
    expect(what, m.kind, kind);
    expect(what, m.size, size);
    expect(what, m.offset, offset);
    expect(what, m.salt, salt);
    expect(what, m.width, width);
    expect(what, m.count, count);
    expect(what, m.start, start);
    expect(what, m.next, next);
}

/* A message of a kind whose bytes behind the header are all zero. */
static tandawire_message bare(uint32_t kind, size_t bytes)
{
    memset(buffer, 0, sizeof buffer);
    buffer[0] = (uint8_t)(bytes >> 8);
    buffer[1] = (uint8_t)bytes;
    buffer[2] = (uint8_t)(kind >> 8);
    buffer[3] = (uint8_t)kind;
    return tandawire_message_read(buffer, bytes);
}

static void expect_filter_messages(void)
{
    const size_t most = TANDAWIRE_MOST_FILTER_BYTES, slice = TANDAWIRE_SLICE_PLACES, last = TANDAWIRE_MOST_SIZE - slice;
    const size_t first = 16 + 12 * slice + 4 * slice;

    memset(ids, 0, sizeof ids);
    memset(hashes, 0, sizeof hashes);
    memset(counts, 0, sizeof counts);
    /* The largest counter of all is in the last bucket, and the widest there is. */
    ids[TANDAWIRE_MOST_SIZE - 1] = 7;
    counts[TANDAWIRE_MOST_SIZE - 1] = 0xffffffff;
    expect("filter, most bytes", write_filter(most, TANDAWIRE_MOST_SIZE, 5).next, most);
    expect("filter, one byte less", write_filter(most - 1, TANDAWIRE_MOST_SIZE, 5).refusal, TANDAWIRE_REFUSED_ROOM);
    expect_message("the walk, IBF", tandawire_message_at(buffer, most, 0), 0, TANDAWIRE_IBF, TANDAWIRE_MOST_SIZE, 0, 5, 32, slice, 0, first);
    expect_message("the walk, IBF LAST", tandawire_message_at(buffer, most, first), 0, TANDAWIRE_IBF_LAST, TANDAWIRE_MOST_SIZE, (uint32_t)slice, 5, 32,
                   last, first, most);
    expect_message("the walk, the end", tandawire_message_at(buffer, most, most), 0, TANDAWIRE_END, 0, 0, 0, 0, 0, most, most);
    expect_message("the walk, malformed", tandawire_message_at(buffer, most, 1), TANDAWIRE_REFUSED_MALFORMED, TANDAWIRE_MALFORMED, 0, 0, 0, 0, 0, 1, 1);
    expect_message("read, malformed", tandawire_message_read(buffer, most), TANDAWIRE_REFUSED_MALFORMED, TANDAWIRE_MALFORMED, 0, 0, 0, 0, 0, 0, 0);
    ids[TANDAWIRE_MOST_SIZE - 1] = 0;
    expect("lay, no room", tandawire_filter_lay(buffer + first, most - first, ids, ROOM, hashes, ROOM, counts, TANDAWIRE_MOST_SIZE - 1),
           TANDAWIRE_REFUSED_ROOM);
    expect("lay", tandawire_filter_lay(buffer + first, most - first, ids, ROOM, hashes, ROOM, counts, TANDAWIRE_MOST_SIZE), TANDAWIRE_REFUSED_NONE);
    expect("lay, the last bucket", (size_t)ids[TANDAWIRE_MOST_SIZE - 1], 7);
    expect("lay, two at once", tandawire_filter_lay(buffer, most, ids, ROOM, hashes, ROOM, counts, ROOM), TANDAWIRE_REFUSED_MALFORMED);
    expect("filter, size", write_filter(most, TANDAWIRE_MOST_SIZE + 1, 5).refusal, TANDAWIRE_REFUSED_RANGE);
    expect("filter, salt", write_filter(most, TANDAWIRE_MOST_SIZE, TANDAWIRE_MOST_SALT + 1).refusal, TANDAWIRE_REFUSED_RANGE);
    counts[0] = -1;
    tandawire_written w = write_filter(most, TANDAWIRE_MOST_SIZE, 5);
    expect("filter, a count below 0", w.refusal, TANDAWIRE_REFUSED_FORM);
    expect("filter, nowhere then", w.next, 0);
}

/* The sizes of document 01: 37 buckets at width 2, and 4,096 at width 4. */
static void expect_sizes(void)
{
    memset(ids, 0, sizeof ids);
    memset(hashes, 0, sizeof hashes);
    memset(counts, 0, sizeof counts);
    counts[36] = 3;
    expect("37 buckets at width 2", write_filter(sizeof buffer, 37, 0).next, 470);
    counts[36] = 8;
    expect("4,096 buckets at width 4", write_filter(sizeof buffer, 4096, 0).next, 31516 + 19716);
    expect("the first slice", tandawire_message_at(buffer, sizeof buffer, 0).next, 31516);
}

static void expect_messages(void)
{
    static uint8_t content[TANDAWIRE_MOST_CONTENT + 1];
    const size_t most = TANDAWIRE_MOST_MESSAGE;

    expect("element, empty", tandawire_element_write(content, 0, buffer, most, 0).refusal, TANDAWIRE_REFUSED_MALFORMED);
    expect("element, too long", tandawire_element_write(content, TANDAWIRE_MOST_CONTENT + 1, buffer, sizeof buffer, 0).refusal, TANDAWIRE_REFUSED_MALFORMED);
    expect("element, no room", tandawire_element_write(content, TANDAWIRE_MOST_CONTENT, buffer, most - 1, 0).refusal, TANDAWIRE_REFUSED_ROOM);
    expect("element, longest", tandawire_element_write(content, TANDAWIRE_MOST_CONTENT, buffer, most, 0).next, most);
    content[0] = 9;
    expect("element, from a position", tandawire_element_write(content, 1, buffer, most, 3).next, 3 + TANDAWIRE_MESSAGE_HEAD + 1);
    expect("element, its content", buffer[3 + TANDAWIRE_MESSAGE_HEAD], 9);
    expect("null for nothing", tandawire_element_write(NULL, 0, NULL, 0, 0).refusal, TANDAWIRE_REFUSED_ROOM);
    expect_message("null for nothing, read", tandawire_message_read(NULL, 0), TANDAWIRE_REFUSED_MALFORMED, TANDAWIRE_MALFORMED, 0, 0, 0, 0, 0, 0, 0);
    expect_message("null for nothing, walked", tandawire_message_at(NULL, 0, 0), 0, TANDAWIRE_END, 0, 0, 0, 0, 0, 0, 0);
    expect("null for nothing, laid", tandawire_filter_lay(NULL, 0, NULL, 0, NULL, 0, NULL, 0), TANDAWIRE_REFUSED_MALFORMED);

    const size_t inquiry = 8 + 8 * (size_t)TANDAWIRE_MOST_IDS, offer = TANDAWIRE_MESSAGE_HEAD + TANDAWIRE_HASH_BYTES * (size_t)TANDAWIRE_MOST_HASHES;
    expect_message("INQUIRY", bare(TANDAWIRE_INQUIRY, inquiry), 0, TANDAWIRE_INQUIRY, 0, 0, 0, 0, TANDAWIRE_MOST_IDS, 0, inquiry);
    expect("no longer INQUIRY", inquiry + 8 > most, 1);
    expect_message("OFFER", bare(TANDAWIRE_OFFER, offer), 0, TANDAWIRE_OFFER, 0, 0, 0, 0, TANDAWIRE_MOST_HASHES, 0, offer);
    expect_message("DEMAND", bare(TANDAWIRE_DEMAND, offer), 0, TANDAWIRE_DEMAND, 0, 0, 0, 0, TANDAWIRE_MOST_HASHES, 0, offer);
    expect("no longer OFFER", offer + TANDAWIRE_HASH_BYTES > most, 1);
    expect_message("ELEMENT", bare(TANDAWIRE_ELEMENT, most), 0, TANDAWIRE_ELEMENT, 0, 0, 0, 0, TANDAWIRE_MOST_CONTENT, 0, most);
    expect_message("DONE", bare(TANDAWIRE_DONE, TANDAWIRE_DONE_BYTES), 0, TANDAWIRE_DONE, 0, 0, 0, 0, 1, 0, TANDAWIRE_DONE_BYTES);
    expect_message("DONE of 4 bytes", bare(TANDAWIRE_DONE, 4), TANDAWIRE_REFUSED_MALFORMED, TANDAWIRE_MALFORMED, 0, 0, 0, 0, 0, 0, 0);
    expect_filter_messages();
    expect_sizes();
}

/* ---- A session ---- */

static uint8_t records[TANDAWIRE_RECORDS_BYTES + 1], marks[TANDAWIRE_MARKS_BYTES + 1], out[TANDAWIRE_OUT_BYTES + 1], hash[TANDAWIRE_HASH_BYTES];
static uint64_t inquired[ROOM];

/* A step on a table of elements, with one slice shorter by one: 0 for none. */
static tandawire_stepped take(tandawire_numbers n, size_t elements, int shorter, const uint8_t *message, size_t length)
{
    size_t p = TANDAWIRE_SESSION_PLACES, less[11];
    for (int i = 0; i < 11; i++)
        less[i] = i == shorter;
    return tandawire_step(n, table, elements * TANDAWIRE_HASH_BYTES, records, TANDAWIRE_RECORDS_BYTES - less[1], marks, TANDAWIRE_MARKS_BYTES - less[2],
                          inquired, p - less[3], ids, p - less[4], hashes, p - less[5], counts, p - less[6], ours, p - less[7], theirs, p - less[8], hash,
                          TANDAWIRE_HASH_BYTES - less[9], message, length, out, TANDAWIRE_OUT_BYTES - less[10]);
}

static void expect_session(void)
{
    static uint8_t filter[TANDAWIRE_OUT_BYTES], done[TANDAWIRE_DONE_BYTES];
    expect("numbers, bytes", sizeof(tandawire_numbers), 36);
    expect("answer, bytes", sizeof(tandawire_stepped), 64);
    tandawire_stepped s = tandawire_start_sender(table, TANDAWIRE_HASH_BYTES, 101, 5, marks, TANDAWIRE_MARKS_BYTES, out, TANDAWIRE_OUT_BYTES);
    expect("sender, refusal", s.refusal, TANDAWIRE_REFUSED_NONE);
    expect("sender, state", s.next.state, TANDAWIRE_PASSIVE_DECODING);
    expect("sender, first", s.next.first, 1);
    expect("sender, size", s.next.size, 101);
    expect("sender, salt", s.next.salt, 5);
    expect("sender, size out of range",
           tandawire_start_sender(table, 0, TANDAWIRE_MOST_SIZE + 1, 0, marks, TANDAWIRE_MARKS_BYTES, out, TANDAWIRE_OUT_BYTES).refusal,
           TANDAWIRE_REFUSED_RANGE);
    expect("sender, short out", tandawire_start_sender(table, 0, 37, 0, marks, TANDAWIRE_MARKS_BYTES, out, TANDAWIRE_OUT_BYTES - 1).refusal,
           TANDAWIRE_REFUSED_ROOM);
    expect("receiver, short marks", tandawire_start_receiver(table, 0, marks, TANDAWIRE_MARKS_BYTES - 1).refusal, TANDAWIRE_REFUSED_ROOM);
    size_t length = s.sent;
    memcpy(filter, out, length);
    tandawire_stepped r = tandawire_start_receiver(table, 2 * TANDAWIRE_HASH_BYTES, marks, TANDAWIRE_MARKS_BYTES);
    expect("receiver, state", r.next.state, TANDAWIRE_EXPECTING_IBF);
    for (int i = 1; i < 11; i++)
        expect("step, a slice short", take(r.next, 2, i, filter, length).refusal, TANDAWIRE_REFUSED_ROOM);
    expect("step, malformed", take(r.next, 2, 0, filter, length - 1).refusal, TANDAWIRE_REFUSED_MALFORMED);
    expect("step, aborted", take(r.next, 2, 0, filter, length - 1).next.state, TANDAWIRE_ABORTED);
    r.next.swaps = TANDAWIRE_MOST_SWAPS + 1;
    expect("step, too many swaps", take(r.next, 2, 0, filter, length).refusal, TANDAWIRE_REFUSED_FORM);
    r.next.swaps = 0;
    /* one element of ours: offered, and as nothing is theirs DONE goes with it */
    r = take(r.next, 2, 0, filter, length);
    expect("step, refusal", r.refusal, TANDAWIRE_REFUSED_NONE);
    expect("step, state", r.next.state, TANDAWIRE_ACTIVE_DECODING);
    expect("step, done", r.next.done, 1);
    expect("step, sent", r.sent, TANDAWIRE_MESSAGE_HEAD + TANDAWIRE_HASH_BYTES + TANDAWIRE_DONE_BYTES);
    expect("step, offered", tandawire_message_read(out, TANDAWIRE_MESSAGE_HEAD + TANDAWIRE_HASH_BYTES).kind, TANDAWIRE_OFFER);
    memcpy(done, out + TANDAWIRE_MESSAGE_HEAD + TANDAWIRE_HASH_BYTES, sizeof done);
    expect("step, out of turn", take(r.next, 2, 0, filter, length).refusal, TANDAWIRE_REFUSED_OUT_OF_TURN);
    expect("step, finished", take(r.next, 2, 0, done, sizeof done).next.state, TANDAWIRE_FINISHED);
    done[67] ^= 1;
    expect("step, another checksum", take(r.next, 2, 0, done, sizeof done).refusal, TANDAWIRE_REFUSED_CHECKSUM);
    out[3] = 0x30; /* the OFFER as a DEMAND */
    memcpy(filter, out, TANDAWIRE_MESSAGE_HEAD + TANDAWIRE_HASH_BYTES);
    r = take(r.next, 2, 0, filter, TANDAWIRE_MESSAGE_HEAD + TANDAWIRE_HASH_BYTES);
    expect("step, due", r.due, 1);
    expect("step, demanded twice", take(r.next, 2, 0, filter, TANDAWIRE_MESSAGE_HEAD + TANDAWIRE_HASH_BYTES).refusal, TANDAWIRE_REFUSED_BREACH);
}

int main(void)
{
    test = "header";
    put_table(table, 0, TANDAWIRE_MOST_ELEMENTS + 1);
    expect_builds();
    expect_readings();
    expect_estimators();
    expect_unknown();
    expect_messages();
    expect_session();
    return 0;
}
