/* Tandawire: set reconciliation with peers that are not trusted.
 *
 * Two peers each hold a table of elements, known by their SHA-512 hashes. One sends an invertible
 * Bloom filter in place of its list; the other reads the difference off it, asks for what it lacks,
 * offers what the first lacks, and both end with the union.
 *
 * Two layers, one include:
 *
 *   tandawire_inline.h, included at the end of this file: a session, a filter and an estimator each
 *     as one struct with all its memory, and inline functions over them. Begin there: a session is
 *     tandawire_session_start_sender or _start_receiver, then tandawire_session_step for each message.
 *   this file: the calls themselves, on numbers and slices, for callers that lay out their own
 *     memory; and the constants, the refusals and what a call answers, for both layers.
 *
 * Every call answers every input. Every refusal is a number (TANDAWIRE_REFUSED_..; its text is
 * tandawire_refusal_text), 0 where there is none: the answer itself, or the first field of the struct
 * that is answered. Each call says what a refusal leaves behind. Nothing is undefined but what the
 * memory rules below ask of the caller.
 *
 * Memory. The caller owns all of it and lends it for the length of a call: the library allocates
 * nothing, keeps no pointer and has no state of its own. Each slice is a pointer and then its length
 * in elements of its type. The pointer may be null where the length is 0. The memory must be there for
 * the length given, aligned for its type, and no two slices of one call may overlap. A slice that is not
 * const may be written; what a call does not say it writes is not touched.
 *
 * Threads. Calls on separate memory may run at once: one session a thread is safe, and so are many
 * sessions in one thread. A table that several sessions only read may be lent to all of them. A
 * thread that calls wants TANDAWIRE_STACK_BYTES of stack.
 *
 * A table: hashes of 64 bytes end to end, strictly ascending (as memcmp orders them), at most
 * TANDAWIRE_MOST_ELEMENTS, no two sharing an ID. Its length is in bytes. An ID is the first eight bytes
 * of a hash, most significant first, as a number.
 *
 * A filter: three columns of the same number of places, 37 to 4,096: IDSUM, HASHSUM and COUNT. A
 * received COUNT lies in 0 to 2^32 - 1. An estimator: the same three columns, of
 * TANDAWIRE_ESTIMATOR_PLACES places.
 */
#ifndef TANDAWIRE_H
#define TANDAWIRE_H

#include <stddef.h>
#include <stdint.h>

#if SIZE_MAX != UINT64_MAX
#error "Tandawire's archive is for x86-64, where size_t has 64 bits"
#endif

#ifdef __cplusplus
extern "C" {
#endif

/* The version of this header, as text and as major * 10,000 + minor * 100 + patch; and that of the
 * archive that is linked. A program can hold one to the other. */
#define TANDAWIRE_VERSION "0.5.0"
#define TANDAWIRE_VERSION_NUMBER 500
uint32_t tandawire_version(void);

#define TANDAWIRE_HASH_BYTES 64
#define TANDAWIRE_MOST_ELEMENTS 4096
#define TANDAWIRE_LEAST_SIZE 37
#define TANDAWIRE_MOST_SIZE 4096
#define TANDAWIRE_MOST_SALT 63
#define TANDAWIRE_STRATA 32
#define TANDAWIRE_STRATUM_PLACES 79
#define TANDAWIRE_ESTIMATOR_PLACES (TANDAWIRE_STRATA * TANDAWIRE_STRATUM_PLACES)

/* The stack that a thread should have: a step takes up to 0.7 MB of it, the start of a sender 91 KB,
 * every other call less than 60 KB. */
#define TANDAWIRE_STACK_BYTES 1048576

/* Messages. */
#define TANDAWIRE_MESSAGE_HEAD 4           /* bytes of MSG SIZE and MSG TYPE, and so those before an ELEMENT's content */
#define TANDAWIRE_MOST_MESSAGE 65535       /* bytes of the longest message */
#define TANDAWIRE_SLICE_PLACES 2520        /* buckets of a slice of a filter, at most */
#define TANDAWIRE_MOST_FILTER_BYTES 65568  /* bytes of the messages of a whole filter, at most */
#define TANDAWIRE_MOST_IDS 8190            /* IDs of an INQUIRY, at most */
#define TANDAWIRE_MOST_HASHES 1023         /* hashes of an OFFER or a DEMAND, at most */
#define TANDAWIRE_MOST_CONTENT 65531       /* bytes of an ELEMENT's content, at most */
#define TANDAWIRE_DONE_BYTES 68            /* bytes of a DONE */

/* The kinds of a message: MSG TYPE, or that there is none. */
#define TANDAWIRE_MALFORMED 0              /* the bytes are no message: refused with 4 */
#define TANDAWIRE_END 1                    /* the buffer ends here: not refused */
#define TANDAWIRE_DEMAND 560
#define TANDAWIRE_INQUIRY 561
#define TANDAWIRE_OFFER 562
#define TANDAWIRE_IBF 565
#define TANDAWIRE_ELEMENT 566
#define TANDAWIRE_IBF_LAST 567
#define TANDAWIRE_DONE 568

/* A session: the least sizes of what is lent to a step, where things stand in it, the bits of a mark,
 * how many swaps an end may make, and the states. There is no state 4: it is refused with 1, as is 8 and
 * above. */
#define TANDAWIRE_RECORDS_BYTES 262208
#define TANDAWIRE_FAR_CHECKSUM 262144      /* in records: where the far end's checksum begins */
#define TANDAWIRE_MARKS_BYTES 8192
#define TANDAWIRE_RECORD_MARKS 4096        /* in marks: where those of the hashes demanded begin */
#define TANDAWIRE_SESSION_PLACES 4096
#define TANDAWIRE_OUT_BYTES 295008
#define TANDAWIRE_MARK_ASKED 1             /* the far end asked for it */
#define TANDAWIRE_MARK_OFFERED 2           /* it was offered to the far end */
#define TANDAWIRE_MARK_SERVED 4            /* the far end demanded it */
#define TANDAWIRE_MARK_MET 8               /* it was demanded by us, and has come */
#define TANDAWIRE_MOST_SWAPS 16

#define TANDAWIRE_EXPECTING_IBF 0
#define TANDAWIRE_EXPECTING_IBF_LAST 1
#define TANDAWIRE_ACTIVE_DECODING 2
#define TANDAWIRE_PASSIVE_DECODING 3
#define TANDAWIRE_FINISH_WAITING 5
#define TANDAWIRE_FINISHED 6
#define TANDAWIRE_ABORTED 7

/* Refusals: why, and what is left. They are tried in the order 1, 3, 2, 5 (a session that has ended),
 * 4, 5, 7, 10, 9, 6, 8; the first that applies is the answer. */
#define TANDAWIRE_REFUSED_NONE 0
/* The table is none, a COUNT is outside its range, or a session's numbers or ledger break their form:
 * they are not what the last step left. Everything unchanged, the state too. */
#define TANDAWIRE_REFUSED_FORM 1
/* A column, list or buffer is too short for the call. Everything unchanged, the state too. */
#define TANDAWIRE_REFUSED_ROOM 2
/* The size or the salt that the caller gives is outside its range. Everything unchanged. */
#define TANDAWIRE_REFUSED_RANGE 3
/* No message, or none of the kind asked for, or a content that no message can hold. Memory unchanged;
 * a session is aborted. (A session that has ended answers 5 to whatever comes.) */
#define TANDAWIRE_REFUSED_MALFORMED 4
/* A message that may not come in this state. Memory unchanged; the session is aborted, or has ended
 * already and stays as it is. */
#define TANDAWIRE_REFUSED_OUT_OF_TURN 5
/* A reading is false: the filter contradicts itself or our table. Columns and lists are zero in their
 * first size places. A session swaps and goes on: send what it sends. */
#define TANDAWIRE_REFUSED_FALSE 6
/* The message breaks a rule: an INQUIRY at another salt, an ID asked or a hash demanded twice, an
 * offer that was not inquired or shares an ID, a demand that was not offered, an element not demanded
 * or met already. Memory unchanged; the session is aborted. */
#define TANDAWIRE_REFUSED_BREACH 7
/* The checksums of the two ends differ. Memory unchanged; the session is aborted. */
#define TANDAWIRE_REFUSED_CHECKSUM 8
/* A 17th swap. The session is aborted, columns and lists are zero in the places of the filter read,
 * the rest is unchanged. */
#define TANDAWIRE_REFUSED_SWAPS 9
/* Elements held and wanted would pass 4,096. The session is aborted; after a reading columns and lists
 * are zero as with 9, else memory is unchanged. */
#define TANDAWIRE_REFUSED_LIMIT 10

/* ---- Filters ---- */

/* Makes the filter of a table at a size and a salt, in the first size places of each column. What was
 * there is overwritten; what lies behind is not touched. Answers 0, or 1, 3 or 2. */
uint32_t tandawire_build(const uint8_t *table, size_t table_length,
                         uint64_t *ids, size_t ids_length,
                         uint32_t *hashes, size_t hashes_length,
                         int64_t *counts, size_t counts_length,
                         uint32_t size, uint32_t salt);

/* What a reading answers: the refusal; whether it is complete (1) or stuck (0); how many IDs are listed
 * as ours and as theirs; and how many buckets were looked at. Refused with 6, complete, ours and theirs
 * are 0; refused with 1, 2 or 3, so is looked.
 *
 * A reading looks from bucket 0 for the lowest that seems to hold one element, takes it out, and looks
 * from bucket 0 again. Each look counts the position of the bucket that it finds plus one, or the size
 * where it finds none; the last look counts too. In all that is at most size * (size + 1), whatever the
 * far end sent. The library does not look at each of them again: it finds the same number without. */
typedef struct tandawire_reading {
    uint32_t refusal;
    uint32_t complete;
    size_t ours;
    size_t theirs;
    size_t looked;
} tandawire_reading;

/* Reads the difference of our table and a received filter, made by the far end at the same size and
 * salt. Answers refusal 0, or 1, 3, 2 or 6.
 *
 * The columns hold the received filter and are left as what remains of ours minus received: zero where
 * the reading is complete. The list ours gets the IDs that only our table has, theirs those that only
 * the far end has, each in the order in which they were found, with zeros behind them up to size. An ID
 * may itself be 0: the lengths in the answer count, not the zeros. Only the first size places of each
 * slice are judged and written.
 *
 * Complete: the filter made from our IDs, less those listed as ours, plus those listed as theirs, equals
 * the received one in every place. This is proved, whatever the far end sent. Stuck: some of the
 * difference could not be listed; what is listed may be of use, but is not checked. Refused with 6: the
 * filter contradicts itself or our table. docs/USING.md says how to choose a size, and what to do then. */
tandawire_reading tandawire_read(const uint8_t *table, size_t table_length,
                                 uint64_t *ids, size_t ids_length,
                                 uint32_t *hashes, size_t hashes_length,
                                 int64_t *counts, size_t counts_length,
                                 uint64_t *ours, size_t ours_length,
                                 uint64_t *theirs, size_t theirs_length,
                                 uint32_t size, uint32_t salt);

/* ---- Estimators ---- */

/* Makes the estimator of a table, in the first TANDAWIRE_ESTIMATOR_PLACES places of each column: 32
 * strata of 79 places, stratum 0 first. What was there is overwritten; what lies behind is not touched.
 * Answers 0, or 1 or 2. */
uint32_t tandawire_estimator_build(const uint8_t *table, size_t table_length,
                                   uint64_t *ids, size_t ids_length,
                                   uint32_t *hashes, size_t hashes_length,
                                   int64_t *counts, size_t counts_length);

/* What an estimate answers: the refusal; 1 where the difference is known, 0 where it is unknown or the
 * call is refused; and the estimate, which means something only where it is known, and is 0 otherwise. */
typedef struct tandawire_estimation {
    uint32_t refusal;
    uint32_t known;
    uint64_t estimate;
} tandawire_estimation;

/* Estimates how many IDs are in only one of two tables, from their estimators: the first's columns and
 * the second's. Answers refusal 0, or 1 or 2; a refusal leaves everything unchanged.
 *
 * The second is subtracted from the first, in the first's columns, and the difference read stratum by
 * stratum, from stratum 31 downwards. If every stratum is complete, the estimate is the number of IDs
 * listed, and the first's columns are left zero. At the first stratum i that is not, it is the number
 * listed above it times 2^(i+1); if nothing was listed above it, the difference is unknown. Then that
 * stratum is left as its reading leaves it, zero if it was false, and those below hold the difference. The
 * second's columns are not changed. Only the first TANDAWIRE_ESTIMATOR_PLACES places of each slice are
 * judged and written.
 *
 * Known and 0: the two estimators are equal, as those of equal tables are, and in no other case. Unknown:
 * they differ, and nothing says by how much; never take it for 0. */
tandawire_estimation tandawire_estimate(uint64_t *ids, size_t ids_length,
                                        uint32_t *hashes, size_t hashes_length,
                                        int64_t *counts, size_t counts_length,
                                        const uint64_t *second_ids, size_t second_ids_length,
                                        const uint32_t *second_hashes, size_t second_hashes_length,
                                        const int64_t *second_counts, size_t second_counts_length);

/* ---- Messages ---- */

/* What is found where a message is looked for: the refusal; and its kind, its numbers and its place in the
 * buffer. Fields that its kind does not have are 0. The refusal is 4 exactly where the kind is
 * TANDAWIRE_MALFORMED; with 0 there is a message, or in a walk the end of the buffer, TANDAWIRE_END. */
typedef struct tandawire_message {
    uint32_t refusal; /* 0; or 4 where the bytes are no message */
    uint32_t kind;    /* TANDAWIRE_IBF and so on */
    uint32_t size;    /* IBF and IBF LAST: the buckets of the whole filter */
    uint32_t offset;  /* IBF and IBF LAST: the slice's first bucket, 0 or 2,520 */
    uint32_t salt;    /* IBF, IBF LAST and INQUIRY */
    uint32_t width;   /* IBF and IBF LAST: the bits of a counter */
    size_t count;     /* buckets of the slice, IDs, hashes, or bytes of an ELEMENT's content; 1 for a DONE */
    size_t start;     /* where it begins */
    size_t next;      /* the position behind it */
} tandawire_message;

/* Reads the bytes as exactly one message. Answers refusal 0; or 4 where they are none: the kind is
 * TANDAWIRE_MALFORMED then, and every other field 0. What is read is well-formed in every field: ranges,
 * MSG SIZE, the type of a slice, zeros in the spare bits of packed counters. The content of an ELEMENT is
 * the count bytes from TANDAWIRE_MESSAGE_HEAD on. */
tandawire_message tandawire_message_read(const uint8_t *message, size_t message_length);

/* Walks a buffer that holds several messages end to end: the message that begins at a position, start
 * is at and next the position behind it.
 *
 *     size_t at = 0;
 *     tandawire_message m;
 *     while (m = tandawire_message_at(buffer, length, at), m.kind > TANDAWIRE_END) {
 *         .. buffer + m.start, m.next - m.start bytes ..
 *         at = m.next;
 *     }
 *     if (m.refusal)
 *         .. the bytes from at on are no message ..
 *
 * Answers refusal 0; or 4, and kind TANDAWIRE_MALFORMED, where no message begins there: those before it
 * stand, and there is no way past it. At the end of the buffer, or past it, the refusal is 0 and the kind
 * TANDAWIRE_END. In both cases start and next are the position given, and the fields between are 0. */
tandawire_message tandawire_message_at(const uint8_t *buffer, size_t buffer_length, size_t at);

/* What a writer answers: the refusal; and the position behind what it wrote, 0 where it is refused. */
typedef struct tandawire_written {
    uint32_t refusal;
    size_t next;
} tandawire_written;

/* Writes an element's content as one ELEMENT message into a buffer, from a position on. What is before
 * and behind is not touched. Answers 0; or 2 where the message does not fit; or 4 where the content is
 * empty or longer than TANDAWIRE_MOST_CONTENT. A refusal leaves everything unchanged. */
tandawire_written tandawire_element_write(const uint8_t *content, size_t content_length,
                                          uint8_t *out, size_t out_length, size_t at);

/* Writes the filter in the first size places of three columns (as tandawire_build leaves it) as one IBF
 * LAST message, or as an IBF and an IBF LAST for more than TANDAWIRE_SLICE_PLACES buckets, into a
 * buffer, from a position on, its counters at the smallest width that holds them all.
 * TANDAWIRE_MOST_FILTER_BYTES bytes are always enough. What is before and behind is not touched. Answers
 * 0; or 1 where a COUNT is outside its range, 3 for the size or the salt, 2 where a column or the buffer
 * is too short. A refusal leaves everything unchanged. */
tandawire_written tandawire_filter_write(const uint64_t *ids, size_t ids_length,
                                         const uint32_t *hashes, size_t hashes_length,
                                         const int64_t *counts, size_t counts_length,
                                         uint32_t size, uint32_t salt,
                                         uint8_t *out, size_t out_length, size_t at);

/* Lays the slice of an IBF or IBF LAST message into three columns, in its places from its offset on.
 * Nothing else is touched. Once all slices of a filter are laid (one size, salt and width, in order: the
 * caller sees to it, or takes tandawire_filter_take, which does), tandawire_read reads it at the size
 * and salt that the messages name. Answers 0; or 2 where a column has no room for the slice; or 4 where
 * the bytes are not exactly one such message. A refusal leaves everything unchanged. */
uint32_t tandawire_filter_lay(const uint8_t *message, size_t message_length,
                              uint64_t *ids, size_t ids_length,
                              uint32_t *hashes, size_t hashes_length,
                              int64_t *counts, size_t counts_length);

/* ---- Sessions ---- */

/* What a caller keeps of a session beside the memory that it lends: handed to each step, and taken from
 * its answer for the next. */
typedef struct tandawire_numbers {
    uint32_t state;    /* TANDAWIRE_EXPECTING_IBF and so on */
    uint32_t first;    /* 1 from the entry to Passive Decoding until a message has come */
    uint32_t size;     /* of the last filter sent or received */
    uint32_t salt;
    uint32_t width;    /* of the slice laid */
    uint32_t swaps;    /* made by this end */
    uint32_t done;     /* 1 when our DONE went */
    uint32_t demanded; /* hashes demanded: that many stand at the start of records */
    uint32_t inquired; /* IDs inquired: that many stand at the start of inquired */
} tandawire_numbers;

/* What a start or a step answers. Send the first sent bytes of out, one message or several end to end,
 * to the far end as they are, whatever the refusal is: with 6 they are our own filter, with every other
 * refusal there are none. After a DEMAND there are due bare hashes of 64 bytes at the start of out
 * instead: send the element of each as an ELEMENT, in this order. A swap shows in next.swaps, which grows
 * by 1: with refusal 6, or with 0 where the reading was stuck. */
typedef struct tandawire_stepped {
    uint32_t refusal;
    size_t sent;
    size_t due;
    tandawire_numbers next;
} tandawire_stepped;

/* Starts a session that waits for the far end's filter. The table stays as it is, and is lent to every
 * step, until the session has ended: elements that come are kept in records, not in it. marks has
 * TANDAWIRE_MARKS_BYTES bytes; those of the table are made zero. Answers 0, or 1 or 2; a refusal changes
 * nothing, and its numbers are of no session. */
tandawire_stepped tandawire_start_receiver(const uint8_t *table, size_t table_length,
                                           uint8_t *marks, size_t marks_length);

/* Starts a session that sends its filter first, at a size and a salt of the caller's: its messages are
 * the first sent bytes of out, which has TANDAWIRE_OUT_BYTES bytes. The rest as above. Answers 0, or 1,
 * 3 or 2. */
tandawire_stepped tandawire_start_sender(const uint8_t *table, size_t table_length,
                                         uint32_t size, uint32_t salt,
                                         uint8_t *marks, size_t marks_length,
                                         uint8_t *out, size_t out_length);

/* One message taken. Every slice is lent for the call, must have at least the size that stands beside
 * it, and must come back to the next step as the last one left it: the ledger (records, marks,
 * inquired), the columns and the lists are the session's memory. Their content before the start does not
 * matter, but for what a start has set.
 *
 *   records   TANDAWIRE_RECORDS_BYTES: the hashes demanded, ascending; from TANDAWIRE_FAR_CHECKSUM on
 *             the far end's checksum, while it is needed
 *   marks     TANDAWIRE_MARKS_BYTES: a byte for each element of the table, and from
 *             TANDAWIRE_RECORD_MARKS on one for each hash demanded; their bits are TANDAWIRE_MARK_..
 *   inquired  TANDAWIRE_SESSION_PLACES: the IDs inquired, ascending
 *   ids, hashes, counts, ours, theirs   TANDAWIRE_SESSION_PLACES each
 *   hash      TANDAWIRE_HASH_BYTES: for an ELEMENT the SHA-512 of its content, worked out by the caller;
 *             else anything
 *   message   exactly one message (tandawire_message_at walks a buffer of several)
 *   out       TANDAWIRE_OUT_BYTES; what lies behind what is written is not touched
 *
 * Elements held are those of the table, and the hashes demanded whose mark has TANDAWIRE_MARK_MET. In
 * TANDAWIRE_FINISHED the far end's checksum, the XOR of all hashes that it holds, was ours.
 *
 * 1 is tried before 2, on as much of a short ledger as is there: 2 says nothing of what is missing.
 * Refusals 1 and 2 change nothing, not even the state; 5 in a session that has ended likewise. 4, 5, 7,
 * 8, 9 and 10 abort the session and leave the ledger as it was; 9, and 10 after a reading, make columns
 * and lists zero in the places of the filter read. With 6 the session swaps and goes on: what was sent
 * is its own filter. */
tandawire_stepped tandawire_step(tandawire_numbers numbers,
                                 const uint8_t *table, size_t table_length,
                                 uint8_t *records, size_t records_length,
                                 uint8_t *marks, size_t marks_length,
                                 uint64_t *inquired, size_t inquired_length,
                                 uint64_t *ids, size_t ids_length,
                                 uint32_t *hashes, size_t hashes_length,
                                 int64_t *counts, size_t counts_length,
                                 uint64_t *ours, size_t ours_length,
                                 uint64_t *theirs, size_t theirs_length,
                                 const uint8_t *hash, size_t hash_length,
                                 const uint8_t *message, size_t message_length,
                                 uint8_t *out, size_t out_length);

#ifdef __cplusplus
}
#endif

#include "tandawire_inline.h"

#endif
