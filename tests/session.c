/* A session's constants, and the layout of every struct of include/tandawire.h, held to what the compiled library does: two ends step by step, with every
 * field of an answer at a value of its own. In a thread with the stack that the header names. Compiles as C11 and as C++17; silent, exit 0, if all agree. */
#include <pthread.h>

#include "expect.h"

enum { HASH = TANDAWIRE_HASH_BYTES, ALL = TANDAWIRE_MOST_ELEMENTS };

static tandawire_session anna, bert, saved, given, left;
static uint8_t anna_table[ALL * HASH], bert_table[ALL * HASH], line[1 << 20], held[2][ALL * HASH];

/* ---- Layout ---- */

static void expect_sizes(void)
{
    expect("sizeof reading", sizeof(tandawire_reading), 32);
    expect("reading, complete", offsetof(tandawire_reading, complete), 4);
    expect("reading, ours", offsetof(tandawire_reading, ours), 8);
    expect("reading, theirs", offsetof(tandawire_reading, theirs), 16);
    expect("reading, looked", offsetof(tandawire_reading, looked), 24);
    expect("sizeof estimation", sizeof(tandawire_estimation), 16);
    expect("estimation, known", offsetof(tandawire_estimation, known), 4);
    expect("estimation, estimate", offsetof(tandawire_estimation, estimate), 8);
    expect("sizeof message", sizeof(tandawire_message), 48);
    expect("message, refusal", offsetof(tandawire_message, refusal), 0);
    expect("message, kind", offsetof(tandawire_message, kind), 4);
    expect("message, size", offsetof(tandawire_message, size), 8);
    expect("message, offset", offsetof(tandawire_message, offset), 12);
    expect("message, salt", offsetof(tandawire_message, salt), 16);
    expect("message, width", offsetof(tandawire_message, width), 20);
    expect("message, count", offsetof(tandawire_message, count), 24);
    expect("message, start", offsetof(tandawire_message, start), 32);
    expect("message, next", offsetof(tandawire_message, next), 40);
    expect("sizeof written", sizeof(tandawire_written), 16);
    expect("written, next", offsetof(tandawire_written, next), 8);
    expect("sizeof numbers", sizeof(tandawire_numbers), 36);
    expect("sizeof stepped", sizeof(tandawire_stepped), 64);
    expect("stepped, sent", offsetof(tandawire_stepped, sent), 8);
    expect("stepped, due", offsetof(tandawire_stepped, due), 16);
    expect("stepped, next", offsetof(tandawire_stepped, next), 24);
}

/* Answers whose fields all differ: a field read at another's place would show. */
static void expect_answers(void)
{
    static tandawire_filter f;
    static tandawire_lists lists;
    size_t ours = put_table(anna_table, 1, 5), theirs = put_table(bert_table, 3, 7);
    expect("build", tandawire_filter_make(&f, bert_table, theirs, 4001, 9), 0);
    tandawire_written w = tandawire_filter_put(&f, line, sizeof line, 7);
    expect("written, refusal", w.refusal, 0);
    tandawire_message m = tandawire_message_at(line, w.next, 7);
    expect("first slice, width", m.width, 1);
    m = tandawire_message_at(line, w.next, m.next);
    expect("message, refusal", m.refusal, 0);
    expect("message, kind", m.kind, TANDAWIRE_IBF_LAST);
    expect("message, size", m.size, 4001);
    expect("message, offset", m.offset, 2520);
    expect("message, salt", m.salt, 9);
    expect("message, width", m.width, 1);
    expect("message, count", m.count, 1481);
    expect("message, start", m.start, 7 + 16 + 12 * 2520 + 315);
    expect("message, next", m.next, m.start + 16 + 12 * 1481 + 186);
    expect("written, next", w.next, m.next);
    expect("no message, refusal", tandawire_message_at(line, w.next, 8).refusal, TANDAWIRE_REFUSED_MALFORMED);
    w = tandawire_filter_put(&f, line, m.next - 1, 7);
    expect("not written, refusal", w.refusal, TANDAWIRE_REFUSED_ROOM);
    expect("not written, next", w.next, 0);
    tandawire_reading r = tandawire_filter_read(&f, &lists, anna_table, ours);
    expect("reading, refusal", r.refusal, 0);
    expect("reading, complete", r.complete, 1);
    expect("reading, ours", r.ours, 2);
    expect("reading, theirs", r.theirs, 4);
    expect("reading, looked", r.looked, 10063);
}

/* Numbers that are of no session come back as they were given, field by field. */
static void expect_numbers(void)
{
    const uint32_t given[9] = {1000, 1001, 1002, 1003, 1004, 1005, 1006, 1007, 1008};
    tandawire_stepped a = tandawire_session_start_receiver(&anna, anna_table, put_table(anna_table, 1, 2));
    expect("receiver", a.refusal, TANDAWIRE_REFUSED_NONE);
    memcpy(&anna.numbers, given, sizeof given);
    a = tandawire_session_step(&anna, line, 1, NULL);
    expect("numbers, refusal", a.refusal, TANDAWIRE_REFUSED_FORM);
    expect("numbers, as given", (size_t)memcmp(&a.next, given, sizeof given), 0);
}

/* A step with as much of the ledger's memory as is said. */
static uint32_t refused_short(tandawire_session *s, size_t records, size_t marks, size_t inquired)
{
    uint8_t hash[HASH] = {0};
    return tandawire_step(s->numbers, s->table, s->table_length, s->records, records, s->marks, marks, s->inquired, inquired, s->ids, ALL, s->hashes, ALL, s->counts, ALL,
                          s->ours, ALL, s->theirs, ALL, hash, sizeof hash, line, 1, s->out, sizeof s->out)
        .refusal;
}

/* A ledger that is lent short is judged as far as it is there: 1 comes before 2. */
static void expect_short_ledgers(void)
{
    tandawire_stepped a = tandawire_session_start_receiver(&anna, anna_table, put_table(anna_table, 1, 2));
    expect("receiver", a.refusal, TANDAWIRE_REFUSED_NONE);
    const size_t records = sizeof anna.records, marks = sizeof anna.marks;
    expect("short marks", refused_short(&anna, records, marks - 1, ALL), TANDAWIRE_REFUSED_ROOM);
    expect("short records", refused_short(&anna, records - 1, marks, ALL), TANDAWIRE_REFUSED_ROOM);
    expect("short inquired", refused_short(&anna, records, marks, ALL - 1), TANDAWIRE_REFUSED_ROOM);
    expect("nothing of the ledger", refused_short(&anna, 0, 0, 0), TANDAWIRE_REFUSED_ROOM);
    anna.marks[1] = TANDAWIRE_MARK_ASKED;
    expect("a mark, there", refused_short(&anna, 0, 2, 0), TANDAWIRE_REFUSED_FORM);
    expect("a mark, cut off", refused_short(&anna, 0, 1, 0), TANDAWIRE_REFUSED_ROOM);
    anna.marks[1] = 0;
    anna.numbers.done = 1;
    expect("DONE went, short marks", refused_short(&anna, records, marks - 1, ALL), TANDAWIRE_REFUSED_FORM);
    anna.numbers.done = 0;
    anna.numbers.demanded = 1;
    expect("a demand counted, no records", refused_short(&anna, 0, marks, ALL), TANDAWIRE_REFUSED_FORM);
    anna.numbers.demanded = 0;
    anna.numbers.inquired = 1;
    expect("an ID counted, none there", refused_short(&anna, records, marks, 0), TANDAWIRE_REFUSED_FORM);
}

/* ---- Two ends, step by step ---- */

/* Hands the message that begins at a position of what was sent to an end; it must be of this kind. */
static tandawire_stepped take(tandawire_session *to, const uint8_t *sent, size_t at, size_t length, uint32_t kind)
{
    tandawire_message m = tandawire_message_at(sent, length, at);
    expect("kind of the next message", m.kind, kind);
    return tandawire_session_step(to, sent + m.start, m.next - m.start, NULL);
}

static tandawire_stepped take_element(tandawire_session *to, uint64_t id)
{
    uint8_t hash[HASH], message[TANDAWIRE_MESSAGE_HEAD + 1], content = 42;
    put_hash(hash, id);
    size_t length = tandawire_element_write(&content, 1, message, sizeof message, 0).next;
    expect("element, without a hash", tandawire_session_step(to, message, length, NULL).refusal, TANDAWIRE_REFUSED_ROOM);
    return tandawire_session_step(to, message, length, hash);
}

/* Hands a DONE that names a checksum to a copy of a session, where it sends nothing and writes nothing. */
static void expect_done(const tandawire_session *s, uint64_t check, uint32_t refusal, uint32_t state)
{
    uint8_t done[TANDAWIRE_DONE_BYTES] = {0, TANDAWIRE_DONE_BYTES, TANDAWIRE_DONE >> 8, TANDAWIRE_DONE & 255};
    put_hash(done + TANDAWIRE_MESSAGE_HEAD, check);
    memcpy(&left, s, sizeof left);
    tandawire_stepped a = tandawire_session_step(&left, done, sizeof done, NULL);
    expect("DONE, refusal", a.refusal, refusal);
    expect("DONE, state", a.next.state, state);
    expect("DONE, nothing goes", a.sent + a.due, 0);
    left.numbers.state = s->numbers.state;
    expect("DONE, nothing else changes", (size_t)memcmp(&left, s, sizeof left), 0);
}

/* A session with a number that is no state's: refused with 1 before anything else is asked, with rooms and with none. */
static void expect_no_state(const tandawire_session *s, uint32_t state, const uint8_t *message, size_t length)
{
    uint8_t hash[HASH];
    put_hash(hash, 8);
    memcpy(&given, s, sizeof given);
    given.numbers.state = state;
    for (size_t all = 0; all <= 1; all++) {
        const size_t places = all * ALL;
        memcpy(&left, &given, sizeof left);
        tandawire_stepped a = tandawire_step(left.numbers, left.table, left.table_length, left.records, all * sizeof left.records, left.marks,
                                             all * sizeof left.marks, left.inquired, places, left.ids, places, left.hashes, places, left.counts, places,
                                             left.ours, places, left.theirs, places, hash, all * sizeof hash, message, length, left.out,
                                             all * sizeof left.out);
        expect("no state, refusal", a.refusal, TANDAWIRE_REFUSED_FORM);
        expect("no state, nothing goes", a.sent + a.due, 0);
        expect("no state, the numbers given", (size_t)memcmp(&a.next, &given.numbers, sizeof a.next), 0);
        expect("no state, memory", (size_t)memcmp(&left, &given, sizeof left), 0);
    }
}

/* The states are 0 to 3 and 5 to 7: each other number, with a message that is due, with one that is not, and with none. */
static void expect_no_states(const tandawire_session *s)
{
    static const uint32_t numbers[] = {4, 8, 9, UINT32_MAX};
    const uint8_t element[] = {0, 5, TANDAWIRE_ELEMENT >> 8, TANDAWIRE_ELEMENT & 255, 42};
    const uint8_t done[TANDAWIRE_DONE_BYTES] = {0, TANDAWIRE_DONE_BYTES, TANDAWIRE_DONE >> 8, TANDAWIRE_DONE & 255};
    for (size_t i = 0; i < sizeof numbers / sizeof numbers[0]; i++) {
        expect_no_state(s, numbers[i], element, sizeof element);
        expect_no_state(s, numbers[i], done, sizeof done);
        expect_no_state(s, numbers[i], element, 1);
    }
}

/* Anna holds 1 to 6 and sends; Bert holds 5 to 9 and asks for 1 to 4. */
static size_t expect_opening(void)
{
    tandawire_stepped a = tandawire_session_start_sender(&anna, anna_table, put_table(anna_table, 1, 6), 101, 5);
    expect("sender, state", a.next.state, TANDAWIRE_PASSIVE_DECODING);
    expect("sender, first", a.next.first, 1);
    expect("sender, size", a.next.size, 101);
    expect("sender, salt", a.next.salt, 5);
    tandawire_stepped b = tandawire_session_start_receiver(&bert, bert_table, put_table(bert_table, 5, 5));
    expect("receiver, state", b.next.state, TANDAWIRE_EXPECTING_IBF);
    b = take(&bert, anna.out, 0, a.sent, TANDAWIRE_IBF_LAST);
    expect("opened, state", b.next.state, TANDAWIRE_ACTIVE_DECODING);
    expect("opened, inquired", b.next.inquired, 4);
    expect("opened, demanded", b.next.demanded, 0);
    expect("opened, done", b.next.done, 0);
    expect("opened, sent", b.sent, 8 + 4 * 8 + 4 + 3 * 64);
    expect("opened, the first ID", (size_t)bert.inquired[0], 1);
    expect_listed("opened, the list ours", bert.ours, 101, 7, 3);
    expect_listed("opened, the list theirs", bert.theirs, 101, 1, 4);
    expect("opened, marks", bert.marks[2], TANDAWIRE_MARK_OFFERED);
    expect_done(&bert, 5 ^ 6 ^ 7 ^ 8 ^ 9, TANDAWIRE_REFUSED_OUT_OF_TURN, TANDAWIRE_ABORTED); /* ours has not gone */
    expect_no_states(&bert);
    memcpy(line, bert.out, b.sent);
    return b.sent;
}

/* Bert's INQUIRY and OFFER to Anna, her OFFER and DEMAND back. */
static void expect_lists(size_t sent)
{
    tandawire_stepped a = take(&anna, line, 0, sent, TANDAWIRE_INQUIRY);
    expect("asked, first", a.next.first, 0);
    expect("asked, marks", anna.marks[3], TANDAWIRE_MARK_ASKED | TANDAWIRE_MARK_OFFERED);
    expect("asked, not the fifth", anna.marks[4], 0);
    tandawire_stepped b = take(&bert, anna.out, 0, a.sent, TANDAWIRE_OFFER);
    expect("offered, demanded", b.next.demanded, 4);
    a = take(&anna, bert.out, 0, b.sent, TANDAWIRE_DEMAND);
    expect("demanded, due", a.due, 4);
    expect("demanded, sent", a.sent, 0);
    expect("demanded, marks", anna.marks[3], TANDAWIRE_MARK_ASKED | TANDAWIRE_MARK_OFFERED | TANDAWIRE_MARK_SERVED);
    expect("demanded, the third", (size_t)memcmp(tandawire_session_due(&anna, 2), bert.out + TANDAWIRE_MESSAGE_HEAD + 2 * HASH, HASH), 0);
    a = take(&anna, line, 8 + 4 * 8, sent, TANDAWIRE_OFFER);
    expect("offered to her, demanded", a.next.demanded, 3);
    b = take(&bert, anna.out, 0, a.sent, TANDAWIRE_DEMAND);
    expect("demanded of him, due", b.due, 3);
    expect("demanded of him, marks", bert.marks[2], TANDAWIRE_MARK_OFFERED | TANDAWIRE_MARK_SERVED);
}

/* The elements, and DONE: Bert's comes to Anna before her last elements, so that she waits with his checksum. */
static void expect_end(void)
{
    const uint64_t all = 1 ^ 2 ^ 3 ^ 4 ^ 5 ^ 6 ^ 7 ^ 8 ^ 9;
    tandawire_stepped a, b = {0, 0, 0, {0, 0, 0, 0, 0, 0, 0, 0, 0}};
    for (uint64_t id = 1; id <= 4; id++) {
        expect("element, mark before", bert.marks[TANDAWIRE_RECORD_MARKS + id - 1], 0);
        b = take_element(&bert, id);
        expect("element, refusal", b.refusal, 0);
        expect("element, mark", bert.marks[TANDAWIRE_RECORD_MARKS + id - 1], TANDAWIRE_MARK_MET);
    }
    expect("done, went", b.next.done, 1);
    expect("done, sent", b.sent, TANDAWIRE_DONE_BYTES);
    expect_done(&bert, all, TANDAWIRE_REFUSED_NONE, TANDAWIRE_FINISHED);
    expect_done(&bert, all ^ 1, TANDAWIRE_REFUSED_CHECKSUM, TANDAWIRE_ABORTED);
    a = take(&anna, bert.out, 0, b.sent, TANDAWIRE_DONE);
    expect("done, she waits", a.next.state, TANDAWIRE_FINISH_WAITING);
    expect("done, the checksum kept", anna.records[TANDAWIRE_FAR_CHECKSUM + 7], all);
    take_element(&anna, 9);
    a = take_element(&anna, 7);
    expect("not the last element, state", a.next.state, TANDAWIRE_FINISH_WAITING);
    expect("not the last element, sent", a.sent, 0);
    expect_done(&anna, all, TANDAWIRE_REFUSED_OUT_OF_TURN, TANDAWIRE_ABORTED);
    expect_no_states(&anna);
    saved = anna;
    saved.records[TANDAWIRE_FAR_CHECKSUM + 7] ^= 1;
    a = take_element(&saved, 8);
    expect("last element, another checksum", a.refusal, TANDAWIRE_REFUSED_CHECKSUM);
    expect("last element, not gained", (size_t)memcmp(saved.marks, anna.marks, sizeof anna.marks), 0);
    a = take_element(&anna, 8);
    expect("last element, state", a.next.state, TANDAWIRE_FINISHED);
    expect("last element, sent", a.sent, TANDAWIRE_DONE_BYTES);
    b = take(&bert, anna.out, 0, a.sent, TANDAWIRE_DONE);
    expect("finished", b.next.state, TANDAWIRE_FINISHED);
    size_t one = tandawire_session_union(&anna, held[0], sizeof held[0]), two = tandawire_session_union(&bert, held[1], sizeof held[1]);
    expect("union, bytes", one, 9 * HASH);
    expect("union, the same", one == two && !memcmp(held[0], held[1], one), 1);
    expect("after the end", take(&bert, anna.out, 0, a.sent, TANDAWIRE_DONE).refusal, TANDAWIRE_REFUSED_OUT_OF_TURN);
    expect_no_states(&bert);
}

/* ---- Swaps and limits ---- */

/* A filter of two slices, stuck: its swap, and the one too many. */
static void expect_swaps(void)
{
    tandawire_stepped s = tandawire_session_start_sender(&anna, anna_table, put_table(anna_table, 1, ALL), 2521, TANDAWIRE_MOST_SALT);
    memcpy(line, anna.out, s.sent);
    size_t second = tandawire_message_at(line, s.sent, 0).next;
    tandawire_session_start_receiver(&bert, bert_table, 0);
    tandawire_stepped b = take(&bert, line, 0, s.sent, TANDAWIRE_IBF);
    expect("slice, state", b.next.state, TANDAWIRE_EXPECTING_IBF_LAST);
    expect("slice, width", b.next.width, tandawire_message_at(line, s.sent, 0).width);
    expect("slice, size", b.next.size, 2521);
    expect("slice, aborted by another", tandawire_session_step(&bert, line, second - 1, NULL).next.state, TANDAWIRE_ABORTED);
    bert.numbers = b.next;
    saved = bert;
    b = take(&bert, line, second, s.sent, TANDAWIRE_IBF_LAST);
    expect("swap, refusal", b.refusal, 0);
    expect("swap, state", b.next.state, TANDAWIRE_PASSIVE_DECODING);
    expect("swap, swaps", b.next.swaps, 1);
    expect("swap, size", b.next.size, TANDAWIRE_MOST_SIZE);
    expect("swap, salt", b.next.salt, 0);
    saved.numbers.swaps = TANDAWIRE_MOST_SWAPS;
    b = take(&saved, line, second, s.sent, TANDAWIRE_IBF_LAST);
    expect("a swap too many", b.refusal, TANDAWIRE_REFUSED_SWAPS);
    expect("a swap too many, columns", saved.ids[2520] | (uint64_t)saved.counts[0], 0);
}

/* The whole table of 4,096 asked for, offered, demanded and sent: the longest lists; and one offer too many. */
static void expect_limits(void)
{
    uint8_t offer[TANDAWIRE_MESSAGE_HEAD + HASH] = {0, TANDAWIRE_MESSAGE_HEAD + HASH, TANDAWIRE_OFFER >> 8, TANDAWIRE_OFFER & 255};
    static uint8_t inquiry[8 + 8 * ALL];
    tandawire_session_start_sender(&anna, anna_table, put_table(anna_table, 1, ALL), 37, 0);
    saved = anna;
    inquiry[0] = sizeof inquiry >> 8, inquiry[1] = sizeof inquiry & 255;
    inquiry[2] = TANDAWIRE_INQUIRY >> 8, inquiry[3] = TANDAWIRE_INQUIRY & 255;
    for (size_t i = 0; i < ALL; i++)
        memcpy(inquiry + 8 + 8 * i, anna_table + i * HASH, 8);
    tandawire_stepped a = tandawire_session_step(&anna, inquiry, sizeof inquiry, NULL);
    expect("all asked, sent", a.sent, ALL * HASH + 5 * TANDAWIRE_MESSAGE_HEAD);
    memcpy(line, anna.out, a.sent);
    size_t length = a.sent, due = 0, at = 0;
    for (tandawire_message m; m = tandawire_message_at(line, length, at), m.kind > TANDAWIRE_END; at = m.next) {
        line[at + 3] = TANDAWIRE_DEMAND & 255;
        a = tandawire_session_step(&anna, line + at, m.next - at, NULL);
        due += a.due;
    }
    expect("all demanded", due, ALL);
    put_hash(offer + TANDAWIRE_MESSAGE_HEAD, ALL + 1);
    a = tandawire_session_step(&anna, offer, sizeof offer, NULL);
    expect("one offer too many", a.refusal, TANDAWIRE_REFUSED_LIMIT);
    a = tandawire_session_step(&saved, inquiry, sizeof inquiry - 8, NULL);
    expect("cut, malformed", a.refusal, TANDAWIRE_REFUSED_MALFORMED);
}

static void *run(void *nothing)
{
    expect_sizes();
    expect_answers();
    expect_numbers();
    expect_short_ledgers();
    expect_lists(expect_opening());
    expect_end();
    expect_swaps();
    expect_limits();
    return nothing;
}

int main(void)
{
    pthread_t thread;
    pthread_attr_t with_stack;
    test = "session";
    expect("stack", (size_t)pthread_attr_init(&with_stack), 0);
    expect("stack, bytes", (size_t)pthread_attr_setstacksize(&with_stack, TANDAWIRE_STACK_BYTES), 0);
    expect("thread", (size_t)pthread_create(&thread, &with_stack, run, NULL), 0);
    expect("joined", (size_t)pthread_join(thread, NULL), 0);
    pthread_attr_destroy(&with_stack);
    return 0;
}
