/* Tandawire, the comfortable layer: a session, a filter and an estimator each as one struct that holds
 * all memory that the calls of tandawire.h want, and inline functions over them. Include tandawire.h.
 *
 * A session, from one end. The line, SHA-512 and where elements are kept are the caller's; exactly one
 * of the two ends is the sender:
 *
 *     static tandawire_session s;     (about 0.75 MB: static or allocated, not on a small stack)
 *     tandawire_stepped a = sends_first
 *         ? tandawire_session_start_sender(&s, table, table_length, size, 0)
 *         : tandawire_session_start_receiver(&s, table, table_length);
 *     for (;;) {
 *         send the first a.sent bytes of s.out
 *         for (size_t i = 0; i < a.due; i++)
 *             send the element whose hash is tandawire_session_due(&s, i), as an ELEMENT
 *         if (tandawire_session_is_over(&s))
 *             break;
 *         size_t length = receive one message
 *         tandawire_part content = tandawire_element_content(message, length);
 *         if (content.bytes)
 *             sha512(content.bytes, content.length, hash);
 *         a = tandawire_session_step(&s, message, length, content.bytes ? hash : NULL);
 *         if (a.refusal == TANDAWIRE_REFUSED_FORM || a.refusal == TANDAWIRE_REFUSED_ROOM)
 *             break;                  (a fault of this program: nothing has changed)
 *         if (content.bytes && !a.refusal)
 *             keep the element
 *     }
 *     if (tandawire_session_is_finished(&s))
 *         size_t held = tandawire_session_union(&s, new_table, sizeof new_table);
 *
 * examples/smallest.c is this, whole. All pointers to structs must be to such structs; all else is as
 * tandawire.h says: every input is answered, nothing is allocated, nothing is kept.
 */
#ifndef TANDAWIRE_INLINE_H
#define TANDAWIRE_INLINE_H

#ifndef TANDAWIRE_H
#error "include tandawire.h"
#endif

#include <string.h>

#ifdef __cplusplus
extern "C" {
#endif

/* ---- Texts: short, in English, never null; "unknown .." for a number that is none ---- */

static inline const char *tandawire_refusal_text(uint32_t refusal)
{
    static const char *const texts[] = {
        "not refused",
        "a table that is not sorted, has a hash or an ID twice or is too long, or memory of a session that was changed",
        "a lent buffer that is too short, or an ELEMENT without its hash",
        "a size or salt out of range",
        "a malformed message",
        "a message out of turn",
        "a filter that contradicts itself or our table",
        "a broken rule of the session, or a wrong hash",
        "checksums that differ",
        "too many swaps",
        "too many elements",
    };
    return refusal < sizeof texts / sizeof texts[0] ? texts[refusal] : "unknown refusal";
}

static inline const char *tandawire_state_text(uint32_t state)
{
    static const char *const texts[] = {
        "Expecting IBF", "Expecting IBF Last", "Active Decoding", "Passive Decoding",
        "unknown state", "Finish Waiting",     "Finished",        "Aborted",
    };
    return state < sizeof texts / sizeof texts[0] ? texts[state] : "unknown state";
}

static inline const char *tandawire_kind_text(uint32_t kind)
{
    switch (kind) {
    case TANDAWIRE_MALFORMED: return "malformed";
    case TANDAWIRE_END: return "end";
    case TANDAWIRE_DEMAND: return "DEMAND";
    case TANDAWIRE_INQUIRY: return "INQUIRY";
    case TANDAWIRE_OFFER: return "OFFER";
    case TANDAWIRE_IBF: return "IBF";
    case TANDAWIRE_ELEMENT: return "ELEMENT";
    case TANDAWIRE_IBF_LAST: return "IBF LAST";
    case TANDAWIRE_DONE: return "DONE";
    default: return "unknown kind";
    }
}

/* ---- Messages on a stream ---- */

/* How many bytes the message has that begins with these four, so that a stream can be cut: take four
 * bytes, then the rest. From TANDAWIRE_MESSAGE_HEAD to TANDAWIRE_MOST_MESSAGE. Where MSG SIZE says less,
 * or MSG TYPE is no kind of message, the four bytes alone are to be handed on, and are malformed: so bytes
 * that were never meant as a message are refused at once, and not waited for. */
static inline size_t tandawire_message_bytes(const uint8_t head[TANDAWIRE_MESSAGE_HEAD])
{
    size_t bytes = (size_t)head[0] << 8 | head[1];
    uint32_t kind = (uint32_t)head[2] << 8 | head[3];
    switch (kind) {
    case TANDAWIRE_DEMAND:
    case TANDAWIRE_INQUIRY:
    case TANDAWIRE_OFFER:
    case TANDAWIRE_IBF:
    case TANDAWIRE_ELEMENT:
    case TANDAWIRE_IBF_LAST:
    case TANDAWIRE_DONE: return bytes < TANDAWIRE_MESSAGE_HEAD ? TANDAWIRE_MESSAGE_HEAD : bytes;
    default: return TANDAWIRE_MESSAGE_HEAD;
    }
}

/* A part of a buffer of the caller's. */
typedef struct tandawire_part {
    const uint8_t *bytes;
    size_t length;
} tandawire_part;

/* The content of an ELEMENT, as a part of the message lent; null and 0 if the bytes are no ELEMENT. */
static inline tandawire_part tandawire_element_content(const uint8_t *message, size_t message_length)
{
    tandawire_part part = {NULL, 0};
    if (tandawire_message_read(message, message_length).kind == TANDAWIRE_ELEMENT) {
        part.bytes = message + TANDAWIRE_MESSAGE_HEAD;
        part.length = message_length - TANDAWIRE_MESSAGE_HEAD;
    }
    return part;
}

/* ---- A session ---- */

/* Everything that one end of a session lends, and the outgoing buffer. The table stays the caller's: it
 * must be there, and unchanged, until the session is over. Every other field is the session's; read what
 * you like, write nothing. A session may be copied as a whole between calls, and dropped at any time. */
typedef struct tandawire_session {
    const uint8_t *table;
    size_t table_length;
    tandawire_numbers numbers;
    uint64_t inquired[TANDAWIRE_SESSION_PLACES];
    uint64_t ids[TANDAWIRE_SESSION_PLACES];
    int64_t counts[TANDAWIRE_SESSION_PLACES];
    uint64_t ours[TANDAWIRE_SESSION_PLACES];
    uint64_t theirs[TANDAWIRE_SESSION_PLACES];
    uint32_t hashes[TANDAWIRE_SESSION_PLACES];
    uint8_t records[TANDAWIRE_RECORDS_BYTES];
    uint8_t marks[TANDAWIRE_MARKS_BYTES];
    uint8_t out[TANDAWIRE_OUT_BYTES];
} tandawire_session;

/* Makes the answer of a start a session's (for the two functions below). A refused start leaves a
 * session that is over and holds nothing: whoever overlooks the refusal works on no old memory. */
static inline tandawire_stepped tandawire_session_begin(tandawire_session *s, const uint8_t *table,
                                                        size_t table_length, tandawire_stepped a)
{
    s->table = a.refusal ? NULL : table;
    s->table_length = a.refusal ? 0 : table_length;
    s->numbers = a.next;
    if (a.refusal) {
        s->numbers.state = TANDAWIRE_ABORTED;
        s->numbers.demanded = s->numbers.inquired = 0;
    }
    return a;
}

/* Starts a session that waits for the far end's filter. Answers refusal 0, or 1 for a table that is
 * none. */
static inline tandawire_stepped tandawire_session_start_receiver(tandawire_session *s,
                                                                 const uint8_t *table, size_t table_length)
{
    return tandawire_session_begin(s, table, table_length,
                                   tandawire_start_receiver(table, table_length, s->marks, sizeof s->marks));
}

/* Starts a session that sends its filter first, at a size and a salt: the first sent bytes of s->out.
 * tandawire_size_for finds a size; knowing nothing, take TANDAWIRE_LEAST_SIZE, and the session doubles it
 * until a filter reads. Answers refusal 0, or 1, or 3 for the size or the salt. */
static inline tandawire_stepped tandawire_session_start_sender(tandawire_session *s,
                                                               const uint8_t *table, size_t table_length,
                                                               uint32_t size, uint32_t salt)
{
    return tandawire_session_begin(s, table, table_length,
                                   tandawire_start_sender(table, table_length, size, salt, s->marks,
                                                          sizeof s->marks, s->out, sizeof s->out));
}

/* Takes one message. The hash is the SHA-512 of an ELEMENT's content, 64 bytes; for any other message it
 * is not looked at, and may be null. An ELEMENT without a hash is refused with 2, and nothing changes.
 *
 * Send the first sent bytes of s->out, whatever the refusal, then the elements due. Do both before the
 * next step, which writes s->out anew. The message may not be a part of the session's own memory. */
static inline tandawire_stepped tandawire_session_step(tandawire_session *s, const uint8_t *message,
                                                       size_t message_length, const uint8_t *hash)
{
    static const uint8_t none[TANDAWIRE_HASH_BYTES] = {0};
    size_t hash_length = TANDAWIRE_HASH_BYTES;
    if (!hash) {
        if (tandawire_element_content(message, message_length).bytes)
            hash_length = 0;
        else
            hash = none;
    }
    tandawire_stepped a = tandawire_step(
        s->numbers, s->table, s->table_length, s->records, sizeof s->records, s->marks, sizeof s->marks,
        s->inquired, TANDAWIRE_SESSION_PLACES, s->ids, TANDAWIRE_SESSION_PLACES, s->hashes,
        TANDAWIRE_SESSION_PLACES, s->counts, TANDAWIRE_SESSION_PLACES, s->ours, TANDAWIRE_SESSION_PLACES,
        s->theirs, TANDAWIRE_SESSION_PLACES, hash, hash_length, message, message_length, s->out,
        sizeof s->out);
    s->numbers = a.next;
    return a;
}

/* Whether the session has ended, Finished or Aborted. */
static inline int tandawire_session_is_over(const tandawire_session *s)
{
    return s->numbers.state == TANDAWIRE_FINISHED || s->numbers.state == TANDAWIRE_ABORTED;
}

/* Whether it has ended well: the far end's checksum of what it holds was ours. */
static inline int tandawire_session_is_finished(const tandawire_session *s)
{
    return s->numbers.state == TANDAWIRE_FINISHED;
}

/* The hash of the i-th element due after a DEMAND, i from 0 and below the due that the step answered. It is
 * in the table, or was gained. Send its content as an ELEMENT, by tandawire_element_write; the hash alone is
 * no message. */
static inline const uint8_t *tandawire_session_due(const tandawire_session *s, size_t i)
{
    return s->out + i * TANDAWIRE_HASH_BYTES;
}

/* The hashes gained so far, ascending, one a call: begin with *at 0; null when there is none left. */
static inline const uint8_t *tandawire_session_gained(const tandawire_session *s, size_t *at)
{
    while (*at < s->numbers.demanded && *at < TANDAWIRE_MOST_ELEMENTS) {
        size_t i = (*at)++;
        if (s->marks[TANDAWIRE_RECORD_MARKS + i] & TANDAWIRE_MARK_MET)
            return s->records + i * TANDAWIRE_HASH_BYTES;
    }
    return NULL;
}

/* Writes what is held, the table and what was gained, as one table. Answers the bytes that it takes, at
 * most 64 * TANDAWIRE_MOST_ELEMENTS: where the answer is more than room, nothing was written. The new table
 * may not overlap the old one or the session. */
static inline size_t tandawire_session_union(const tandawire_session *s, uint8_t *table, size_t room)
{
    const size_t bytes = TANDAWIRE_HASH_BYTES;
    size_t at = 0, old = 0, length = s->table_length;
    while (tandawire_session_gained(s, &at))
        length += bytes;
    if (room < length)
        return length;
    at = 0;
    const uint8_t *gained = tandawire_session_gained(s, &at);
    for (size_t next = 0; next < length; next += bytes)
        if (gained && (old == s->table_length || memcmp(gained, s->table + old, bytes) < 0)) {
            memcpy(table + next, gained, bytes);
            gained = tandawire_session_gained(s, &at);
        } else {
            memcpy(table + next, s->table + old, bytes);
            old += bytes;
        }
    return length;
}

/* ---- A filter on its own ---- */

/* A filter with room for every size; whole once size places are laid. Zero it, or make or take one. */
typedef struct tandawire_filter {
    uint32_t size, salt, width, laid;
    uint64_t ids[TANDAWIRE_MOST_SIZE];
    int64_t counts[TANDAWIRE_MOST_SIZE];
    uint32_t hashes[TANDAWIRE_MOST_SIZE];
} tandawire_filter;

/* What a reading lists. */
typedef struct tandawire_lists {
    uint64_t ours[TANDAWIRE_MOST_SIZE];
    uint64_t theirs[TANDAWIRE_MOST_SIZE];
} tandawire_lists;

/* Makes the filter of a table. Answers 0, or 1 or 3, and leaves the filter then as it was. */
static inline uint32_t tandawire_filter_make(tandawire_filter *f, const uint8_t *table, size_t table_length,
                                             uint32_t size, uint32_t salt)
{
    uint32_t refusal = tandawire_build(table, table_length, f->ids, TANDAWIRE_MOST_SIZE, f->hashes,
                                       TANDAWIRE_MOST_SIZE, f->counts, TANDAWIRE_MOST_SIZE, size, salt);
    if (!refusal) {
        f->size = f->laid = size;
        f->salt = salt;
        f->width = 0;
    }
    return refusal;
}

/* Writes a whole filter's messages into a buffer, from a position on. Answers as tandawire_filter_write,
 * or 4 for a filter that is not whole. */
static inline tandawire_written tandawire_filter_put(const tandawire_filter *f, uint8_t *out,
                                                     size_t out_length, size_t at)
{
    tandawire_written none = {TANDAWIRE_REFUSED_MALFORMED, 0};
    if (!f->size || f->laid != f->size)
        return none;
    return tandawire_filter_write(f->ids, TANDAWIRE_MOST_SIZE, f->hashes, TANDAWIRE_MOST_SIZE, f->counts,
                                  TANDAWIRE_MOST_SIZE, f->size, f->salt, out, out_length, at);
}

/* Takes one slice of a far end's filter: the first begins a new filter, a second must go on where the
 * first ended, at its size, salt and width. Answers 0; or 4, and leaves the filter then as it was. */
static inline uint32_t tandawire_filter_take(tandawire_filter *f, const uint8_t *message,
                                             size_t message_length)
{
    tandawire_message m = tandawire_message_read(message, message_length);
    if (m.kind != TANDAWIRE_IBF && m.kind != TANDAWIRE_IBF_LAST)
        return TANDAWIRE_REFUSED_MALFORMED;
    if (m.offset &&
        (m.offset != f->laid || m.size != f->size || m.salt != f->salt || m.width != f->width))
        return TANDAWIRE_REFUSED_MALFORMED;
    uint32_t refusal = tandawire_filter_lay(message, message_length, f->ids, TANDAWIRE_MOST_SIZE, f->hashes,
                                            TANDAWIRE_MOST_SIZE, f->counts, TANDAWIRE_MOST_SIZE);
    if (!refusal) {
        f->size = m.size;
        f->salt = m.salt;
        f->width = m.width;
        f->laid = m.offset + (uint32_t)m.count;
    }
    return refusal;
}

/* Whether every slice is there. */
static inline int tandawire_filter_is_whole(const tandawire_filter *f)
{
    return f->size && f->laid == f->size;
}

/* Reads the difference of our table and a whole filter that was taken. Answers as tandawire_read, or 4
 * for a filter that is not whole. The filter is used up, unless the refusal is 1 or 4. */
static inline tandawire_reading tandawire_filter_read(tandawire_filter *f, tandawire_lists *lists,
                                                      const uint8_t *table, size_t table_length)
{
    tandawire_reading r = {TANDAWIRE_REFUSED_MALFORMED, 0, 0, 0, 0};
    if (!tandawire_filter_is_whole(f))
        return r;
    r = tandawire_read(table, table_length, f->ids, TANDAWIRE_MOST_SIZE, f->hashes, TANDAWIRE_MOST_SIZE,
                       f->counts, TANDAWIRE_MOST_SIZE, lists->ours, TANDAWIRE_MOST_SIZE, lists->theirs,
                       TANDAWIRE_MOST_SIZE, f->size, f->salt);
    if (r.refusal == TANDAWIRE_REFUSED_NONE || r.refusal == TANDAWIRE_REFUSED_FALSE)
        f->laid = 0;
    return r;
}

/* ---- An estimator ---- */

/* About 50 KB. How it travels is the caller's business: the three columns as they are, bucket by bucket. */
typedef struct tandawire_estimator {
    uint64_t ids[TANDAWIRE_ESTIMATOR_PLACES];
    int64_t counts[TANDAWIRE_ESTIMATOR_PLACES];
    uint32_t hashes[TANDAWIRE_ESTIMATOR_PLACES];
} tandawire_estimator;

/* Makes the estimator of a table. Answers 0, or 1. */
static inline uint32_t tandawire_estimator_make(tandawire_estimator *e, const uint8_t *table,
                                                size_t table_length)
{
    return tandawire_estimator_build(table, table_length, e->ids, TANDAWIRE_ESTIMATOR_PLACES, e->hashes,
                                     TANDAWIRE_ESTIMATOR_PLACES, e->counts, TANDAWIRE_ESTIMATOR_PLACES);
}

/* How many elements the table had that an estimator was made from: its COUNTs count each three times. Of an
 * estimator that came from a far end this is what that end says. */
static inline uint64_t tandawire_estimator_elements(const tandawire_estimator *e)
{
    uint64_t total = 0;
    for (size_t i = 0; i < TANDAWIRE_ESTIMATOR_PLACES; i++)
        total += (uint64_t)e->counts[i];
    return total / 3;
}

/* Estimates how many elements are in only one of two tables. Ours is used up: make it anew for another
 * far end. Answers refusal 0, and whether the difference is known; or 1 for a COUNT out of range, and
 * everything is unchanged. */
static inline tandawire_estimation tandawire_estimator_compare(tandawire_estimator *ours,
                                                               const tandawire_estimator *theirs)
{
    const size_t n = TANDAWIRE_ESTIMATOR_PLACES;
    return tandawire_estimate(ours->ids, n, ours->hashes, n, ours->counts, n, theirs->ids, n,
                              theirs->hashes, n, theirs->counts, n);
}

/* A difference that is known without estimating, for tandawire_size_for. */
static inline tandawire_estimation tandawire_known(uint64_t difference)
{
    tandawire_estimation e = {TANDAWIRE_REFUSED_NONE, 1, difference};
    return e;
}

/* The size of a filter for a difference that is known: so many times the estimate, made odd, from 37 to
 * 4,093 (a prime: powers of two read badly). Times: 2 where the difference lies on one side, 3 where it may
 * lie on both, 4 where another exchange is dear. Answers 0 where it is unknown, or the estimate was
 * refused: that is no size, and every call refuses it with 3. docs/USING.md has the rates, and what to do
 * where the difference is unknown. */
static inline uint32_t tandawire_size_for(tandawire_estimation e, uint32_t times)
{
    const uint32_t most = 4093;
    if (e.refusal || !e.known)
        return 0;
    if (times && e.estimate > most / times)
        return most;
    uint32_t size = ((uint32_t)e.estimate * times) | 1;
    return size < TANDAWIRE_LEAST_SIZE ? TANDAWIRE_LEAST_SIZE : size;
}

#ifdef __cplusplus
}
#endif

#endif
