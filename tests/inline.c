/* The functions of include/tandawire_inline.h. Compiles as C11 and as C++17; silent, exit 0, if all is as the header says. */
#include "expect.h"

enum { HASH = TANDAWIRE_HASH_BYTES, ALL = TANDAWIRE_MOST_ELEMENTS };

static uint8_t table[(ALL + 1) * HASH], far_table[ALL * HASH], buffer[TANDAWIRE_MOST_FILTER_BYTES], made[ALL * HASH];
static tandawire_session session;

static void expect_text(const char *what, const char *got, const char *wanted)
{
    if (strcmp(got, wanted) != 0) {
        fprintf(stderr, "%s: %s: got '%s', wanted '%s'\n", test, what, got, wanted);
        exit(1);
    }
}

static void expect_texts(void)
{
    static const char *const states[] = {"Expecting IBF",  "Expecting IBF Last", "Active Decoding", "Passive Decoding", "unknown state",
                                         "Finish Waiting", "Finished",           "Aborted",         "unknown state",    "unknown state"};
    for (uint32_t i = 0; i <= TANDAWIRE_REFUSED_LIMIT; i++)
        for (uint32_t j = 0; j <= TANDAWIRE_REFUSED_LIMIT + 1; j++)
            expect("refusals, a text of its own", !strcmp(tandawire_refusal_text(i), tandawire_refusal_text(j)), i == j);
    expect_text("refusal 4", tandawire_refusal_text(TANDAWIRE_REFUSED_MALFORMED), "a malformed message");
    expect_text("refusal 10", tandawire_refusal_text(TANDAWIRE_REFUSED_LIMIT), "too many elements");
    expect_text("refusal 11", tandawire_refusal_text(TANDAWIRE_REFUSED_LIMIT + 1), "unknown refusal");
    for (uint32_t state = 0; state < sizeof states / sizeof states[0]; state++)
        expect_text("state", tandawire_state_text(state), states[state]);
    expect_text("state 2^32 - 1", tandawire_state_text(UINT32_MAX), "unknown state");
    expect_text("kind 566", tandawire_kind_text(TANDAWIRE_ELEMENT), "ELEMENT");
    expect_text("kind 0", tandawire_kind_text(TANDAWIRE_MALFORMED), "malformed");
    expect_text("kind 564", tandawire_kind_text(564), "unknown kind");
    expect_text("version", TANDAWIRE_VERSION, "0.5.0");
    expect("version, of header and archive", tandawire_version(), TANDAWIRE_VERSION_NUMBER);
}

static void expect_stream(void)
{
    const uint8_t heads[5][TANDAWIRE_MESSAGE_HEAD] = {{0, 0, 2, 54}, {0, 3, 2, 54}, {0, 5, 2, 54}, {255, 255, 2, 54}, {255, 255, 0, 0}};
    static const uint32_t kinds[] = {TANDAWIRE_DEMAND, TANDAWIRE_INQUIRY, TANDAWIRE_OFFER, TANDAWIRE_IBF, TANDAWIRE_ELEMENT, TANDAWIRE_IBF_LAST, TANDAWIRE_DONE};
    const uint8_t element[5] = {0, 5, 2, 54, 9};
    expect("stream, 0", tandawire_message_bytes(heads[0]), 4);
    expect("stream, 3", tandawire_message_bytes(heads[1]), 4);
    expect("stream, 5", tandawire_message_bytes(heads[2]), 5);
    expect("stream, 65,535", tandawire_message_bytes(heads[3]), TANDAWIRE_MOST_MESSAGE);
    expect("stream, no kind", tandawire_message_bytes(heads[4]), 4);
    for (uint32_t type = 0, next = 0; type < 65536; type++) {
        const uint8_t head[TANDAWIRE_MESSAGE_HEAD] = {1, 0, (uint8_t)(type >> 8), (uint8_t)type};
        int known = next < 7 && type == kinds[next];
        next += known ? 1 : 0;
        expect("stream, every type", tandawire_message_bytes(head), known ? 256 : 4);
    }
    tandawire_part part = tandawire_element_content(element, 5);
    expect("content, a part of the message", part.bytes == element + 4 && part.length == 1, 1);
    expect("content, cut", tandawire_element_content(element, 4).bytes == NULL, 1);
    expect("content, of nothing", tandawire_element_content(NULL, 0).length, 0);
}

/* Over is Finished or Aborted: no other state, and no number that is none. */
static void expect_over(void)
{
    for (uint32_t state = 0; state < 10; state++) {
        session.numbers.state = state;
        expect("over, by its state", (size_t)tandawire_session_is_over(&session), state == 6 || state == 7);
        expect("finished, by its state", (size_t)tandawire_session_is_finished(&session), state == 6);
    }
}

/* A start that is refused leaves a session that is over and holds nothing (tandawire_session_begin). */
static void expect_refused_starts(void)
{
    put_table(table, 1, 3);
    memset(&session, 1, sizeof session);
    expect("receiver, a broken hash", tandawire_session_start_receiver(&session, table, HASH + 1).refusal, TANDAWIRE_REFUSED_FORM);
    expect("over", (size_t)tandawire_session_is_over(&session), 1);
    expect("not finished", (size_t)tandawire_session_is_finished(&session), 0);
    expect("holds nothing", tandawire_session_union(&session, made, sizeof made), 0);
    expect("takes nothing", tandawire_session_step(&session, table, 64, NULL).refusal != 0, 1);
    expect("sender, size", tandawire_session_start_sender(&session, table, 3 * HASH, 36, 0).refusal, TANDAWIRE_REFUSED_RANGE);
    expect("over too", (size_t)tandawire_session_is_over(&session), 1);
    expect("receiver", tandawire_session_start_receiver(&session, table, 3 * HASH).refusal, 0);
    expect("not over", (size_t)tandawire_session_is_over(&session), 0);
}

/* The union of a table and of records with marks, whatever their order. */
static void expect_unions(void)
{
    static const uint8_t demanded[4] = {1, 5, 13, 20}, all[6] = {1, 10, 11, 12, 13, 20};
    size_t at = 0;
    expect("receiver", tandawire_session_start_receiver(&session, table, put_table(table, 10, 3)).refusal, 0);
    session.numbers.demanded = 4;
    for (size_t i = 0; i < 4; i++)
        put_hash(session.records + i * HASH, demanded[i]);
    memset(session.marks + TANDAWIRE_RECORD_MARKS, TANDAWIRE_MARK_MET, 4);
    session.marks[TANDAWIRE_RECORD_MARKS + 1] = 0; /* 5 has not come */
    expect("gained, first", tandawire_session_gained(&session, &at)[7], 1);
    expect("gained, second", tandawire_session_gained(&session, &at)[7], 13);
    expect("gained, third", tandawire_session_gained(&session, &at)[7], 20);
    expect("gained, none left", tandawire_session_gained(&session, &at) == NULL, 1);
    memset(made, 9, sizeof made);
    expect("union, no room", tandawire_session_union(&session, made, 6 * HASH - 1), 6 * HASH);
    expect("union, nothing written", made[0], 9);
    expect("union", tandawire_session_union(&session, made, 6 * HASH), 6 * HASH);
    expect("union, behind it", made[6 * HASH], 9);
    for (size_t i = 0; i < 6; i++)
        expect("union, ascending", made[i * HASH + 7], all[i]);
    session.numbers.demanded = UINT32_MAX;
    while (tandawire_session_gained(&session, &at))
        ;
    expect("gained, bounded", at, ALL);
}

static void expect_filters(void)
{
    static tandawire_filter ours, theirs;
    static tandawire_lists lists;
    size_t length = put_table(table, 1, 20), far_length = put_table(far_table, 11, 20);
    expect("not whole", tandawire_filter_put(&theirs, buffer, sizeof buffer, 0).refusal, TANDAWIRE_REFUSED_MALFORMED);
    expect("not whole, read", tandawire_filter_read(&theirs, &lists, table, length).refusal, TANDAWIRE_REFUSED_MALFORMED);
    expect("make, size", tandawire_filter_make(&ours, table, length, 36, 0), TANDAWIRE_REFUSED_RANGE);
    expect("make, still none", (size_t)tandawire_filter_is_whole(&ours), 0);
    expect("make", tandawire_filter_make(&ours, far_table, far_length, 4001, 3), 0);
    tandawire_written w = tandawire_filter_put(&ours, buffer, sizeof buffer, 0);
    size_t second = tandawire_message_at(buffer, w.next, 0).next;
    expect("take, the second first", tandawire_filter_take(&theirs, buffer + second, w.next - second), TANDAWIRE_REFUSED_MALFORMED);
    expect("take, both at once", tandawire_filter_take(&theirs, buffer, w.next), TANDAWIRE_REFUSED_MALFORMED);
    expect("take, the first", tandawire_filter_take(&theirs, buffer, second), 0);
    expect("take, half", (size_t)tandawire_filter_is_whole(&theirs), 0);
    expect("half, read", tandawire_filter_read(&theirs, &lists, table, length).refusal, TANDAWIRE_REFUSED_MALFORMED);
    expect("half, looked", tandawire_filter_read(&theirs, &lists, table, length).looked, 0);
    buffer[second + 13] ^= 1; /* another salt */
    expect("take, another salt", tandawire_filter_take(&theirs, buffer + second, w.next - second), TANDAWIRE_REFUSED_MALFORMED);
    buffer[second + 13] ^= 1;
    expect("take, the second", tandawire_filter_take(&theirs, buffer + second, w.next - second), 0);
    expect("whole", (size_t)tandawire_filter_is_whole(&theirs), 1);
    expect("take, the second twice", tandawire_filter_take(&theirs, buffer + second, w.next - second), TANDAWIRE_REFUSED_MALFORMED);
    expect("as made", !memcmp(ours.ids, theirs.ids, sizeof ours.ids) && !memcmp(ours.counts, theirs.counts, sizeof ours.counts), 1);
    expect("read, a broken table", tandawire_filter_read(&theirs, &lists, table, 65).refusal, TANDAWIRE_REFUSED_FORM);
    tandawire_reading r = tandawire_filter_read(&theirs, &lists, table, length);
    expect("read", r.refusal, 0);
    expect("read, complete", r.complete, 1);
    expect("read, ours", r.ours, 10);
    expect("read, theirs", r.theirs, 10);
    expect("read, looked", r.looked, 26754);
    expect_listed("read, the list ours", lists.ours, 4001, 1, 10);
    expect_listed("read, the list theirs", lists.theirs, 4001, 21, 10);
    expect("used up", (size_t)tandawire_filter_is_whole(&theirs), 0);
}

static void expect_estimators(void)
{
    static tandawire_estimator ours, theirs;
    expect("estimator", tandawire_estimator_make(&ours, table, put_table(table, 1, 20)), 0);
    expect("estimator, theirs", tandawire_estimator_make(&theirs, far_table, put_table(far_table, 11, 20)), 0);
    expect("estimator, a broken table", tandawire_estimator_make(&theirs, far_table, 1), TANDAWIRE_REFUSED_FORM);
    expect("estimator, elements", (size_t)tandawire_estimator_elements(&theirs), 20);
    tandawire_estimation e = tandawire_estimator_compare(&ours, &theirs);
    expect("estimate, known", e.known, 1);
    expect("estimate", (size_t)e.estimate, 20);
    expect("size, of an estimate", tandawire_size_for(e, 3), 61);
    theirs.counts[0] = -1;
    e = tandawire_estimator_compare(&ours, &theirs);
    expect("estimate, a bad count", e.refusal, TANDAWIRE_REFUSED_FORM);
    expect("size, of a refused estimate", tandawire_size_for(e, 3), 0);
    expect("size, none", tandawire_size_for(tandawire_known(0), 3), 37);
    expect("size, 12 times 3", tandawire_size_for(tandawire_known(12), 3), 37);
    expect("size, 13 times 3", tandawire_size_for(tandawire_known(13), 3), 39);
    expect("size, 50 times 4", tandawire_size_for(tandawire_known(50), 4), 201);
    expect("size, 1,364 times 3", tandawire_size_for(tandawire_known(1364), 3), 4093);
    expect("size, 1,365 times 3", tandawire_size_for(tandawire_known(1365), 3), 4093);
    expect("size, of anything", tandawire_size_for(tandawire_known(UINT64_MAX), 4), 4093);
    expect("size, times 0", tandawire_size_for(tandawire_known(UINT64_MAX), 0), 37);
}

/* An unknown difference has no number, and whoever overlooks that is refused. */
static void expect_unknown(void)
{
    static tandawire_estimator ours, theirs;
    static tandawire_session s;
    size_t length = put_table(table, 1, 20);
    tandawire_estimator_make(&ours, table, length);
    theirs = ours;
    tandawire_estimation e = tandawire_estimator_compare(&ours, &theirs);
    expect("equal, known", e.known, 1);
    expect("equal", (size_t)e.estimate, 0);
    expect("equal, size", tandawire_size_for(e, 3), 37);
    tandawire_estimator_make(&ours, table, length);
    theirs.counts[TANDAWIRE_ESTIMATOR_PLACES - 1] += 2;
    e = tandawire_estimator_compare(&ours, &theirs);
    expect("unknown, refusal", e.refusal, TANDAWIRE_REFUSED_NONE);
    expect("unknown", e.known, 0);
    expect("unknown, no number", (size_t)e.estimate, 0);
    expect("unknown, no size", tandawire_size_for(e, 3), 0);
    expect("unknown, no start", tandawire_session_start_sender(&s, table, length, tandawire_size_for(e, 3), 0).refusal, TANDAWIRE_REFUSED_RANGE);
}

int main(void)
{
    test = "inline";
    expect_texts();
    expect_stream();
    expect_over();
    expect_refused_starts();
    expect_unions();
    expect_filters();
    expect_estimators();
    expect_unknown();
    return 0;
}
