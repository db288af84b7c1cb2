/* Both ends of a session, by the library, and the two lines between them in memory. */
#ifndef TANDAWIRE_ENDS_H
#define TANDAWIRE_ENDS_H

#include <stdint.h>
#include <string.h>

#include "../include/tandawire.h"
#include "tables.h"

/* An element's content begins with its hash, so that none has to be worked out: SHA-512 is the
 * caller's, and no work of the library's. */
enum { HASH = TANDAWIRE_HASH_BYTES, CONTENT = 200 };

/* The end that receives the first filter has our table, the one that sends it has theirs. */
enum { RECEIVER, SENDER };
static struct tables tables;
static tandawire_session ends[2];

/* What is on its way to each end, from head on; with room for more than a session can send. */
static struct line {
    uint8_t bytes[8 << 20];
    size_t head, tail;
} lines[2];

/* What a session took so far. */
static struct {
    size_t steps, elements;
} taken;

/* A message on a line. */
struct message {
    const uint8_t *bytes;
    size_t length;
    uint32_t kind;
};

/* Sends what a start or a step answered: messages as they are, and an ELEMENT for each hash due. */
static void put(int from, tandawire_stepped a)
{
    struct line *to = &lines[1 - from];
    uint8_t content[CONTENT] = {0};
    memcpy(to->bytes + to->tail, ends[from].out, a.sent);
    to->tail += a.sent;
    for (size_t i = 0; i < a.due; i++) {
        memcpy(content, tandawire_session_due(&ends[from], i), HASH);
        to->tail = tandawire_element_write(content, CONTENT, to->bytes, sizeof to->bytes, to->tail).next;
    }
    taken.elements += a.due;
}

/* Starts both ends on the tables; 0 if one refuses. */
static int start(uint32_t size)
{
    for (int i = 0; i < 2; i++)
        lines[i].head = lines[i].tail = 0;
    taken.steps = taken.elements = 0;
    tandawire_stepped r = tandawire_session_start_receiver(&ends[RECEIVER], tables.ours, tables.ours_length);
    tandawire_stepped s = tandawire_session_start_sender(&ends[SENDER], tables.theirs, tables.theirs_length, size, 0);
    if (r.refusal || s.refusal)
        return 0;
    put(SENDER, s);
    return 1;
}

/* The next message to an end; its kind is TANDAWIRE_END where there is none. */
static struct message next_to(int end)
{
    const struct line *line = &lines[end];
    tandawire_message m = tandawire_message_at(line->bytes, line->tail, line->head);
    return (struct message){line->bytes + m.start, m.next - m.start, m.kind};
}

static tandawire_stepped step(int end, struct message m)
{
    static const uint8_t none[HASH];
    return tandawire_session_step(&ends[end], m.bytes, m.length, m.kind == TANDAWIRE_ELEMENT ? m.bytes + TANDAWIRE_MESSAGE_HEAD : none);
}

/* Where to stop: before the n-th message of a kind to an end. */
struct stop {
    int end;
    uint32_t kind;
    size_t n;
};

/* Takes messages from both lines until they are empty or the next is the one to stop at; 0 if one
 * was refused. A false reading is no failure: the session swaps. */
static int run_to(struct stop stop)
{
    int empty = 0;
    for (int i = RECEIVER; empty < 2;) {
        struct message m = next_to(i);
        if (m.kind == TANDAWIRE_END) {
            empty++;
            i = 1 - i;
            continue;
        }
        empty = 0;
        if (i == stop.end && m.kind == stop.kind && --stop.n == 0)
            return 1;
        tandawire_stepped a = step(i, m);
        if (a.refusal && a.refusal != TANDAWIRE_REFUSED_FALSE)
            return 0;
        taken.steps++;
        lines[i].head += m.length;
        put(i, a);
    }
    return 1;
}

/* A whole session; 1 if both ends finish. */
static int run(uint32_t size)
{
    const struct stop nowhere = {0, TANDAWIRE_END, 0};
    return start(size) && run_to(nowhere) && tandawire_session_is_finished(&ends[RECEIVER]) && tandawire_session_is_finished(&ends[SENDER]);
}

/* Bytes that went over both lines. */
static size_t wire(void)
{
    return lines[0].tail + lines[1].tail;
}

#endif
