/* Frames over a stream socket, for the examples: whole ones out, whole ones in, and no deadlock.
 *
 * A frame is the envelope in which one thing travels:
 *
 *     1 byte     its kind, LINE_..
 *     2 bytes    the length of the body, most significant first
 *     body       up to 65,535 bytes, so that the library's longest message fits
 *
 * What is sent waits in a queue and is written while we wait for the next frame. If each end wrote all it
 * has before it read, both could stand in their writing with full buffers for ever. The queue needs no
 * limit: a session serves each element once and swaps 16 times at most, whatever the far end asks for. */
#ifndef EXAMPLES_LINE_H
#define EXAMPLES_LINE_H

#include <errno.h>
#include <fcntl.h>
#include <poll.h>
#include <stdint.h>
#include <stdlib.h>
#include <string.h>
#include <sys/socket.h>
#include <unistd.h>

#include "tandawire.h"

enum { LINE_HEAD = 3, LINE_MOST_BODY = 65535, LINE_SECONDS = 45 };

enum {
    LINE_ESTIMATOR = 1, /* an estimator, as estimate.h lays it out */
    LINE_MESSAGE = 2,   /* one message of the library */
    LINE_OVER = 3       /* one byte: the sender's session is over, and is finished (1) or not (0) */
};

struct line {
    int file;
    uint8_t *out; /* the queue: what lies from head to tail is still to be written */
    size_t head, tail, room;
    size_t sent; /* bytes of all frames put into the queue since line_use */
    uint8_t in[LINE_HEAD + LINE_MOST_BODY]; /* the frame that comes, as far as it has come */
    size_t have;
};

struct frame {
    unsigned kind;
    const uint8_t *body; /* in the line, until the next frame is taken */
    size_t length;
};

/* Where a function answers a text, null is success, and a text says why the line is of no more use. */

/* Makes two joined sockets, unless they are there. None is -1. Answers whether they are there now. */
static inline int line_join(int *one, int *other)
{
    int ends[2];
    if (*one >= 0)
        return 1;
    if (socketpair(AF_UNIX, SOCK_STREAM, 0, ends) < 0)
        return 0;
    *one = ends[0];
    *other = ends[1];
    return 1;
}

/* Closes the sockets of a list, but for those kept. None is -1. */
static inline void line_close(const int *files, int number, int kept_from, int kept)
{
    for (int i = 0; i < number; i++)
        if (files[i] >= 0 && (i < kept_from || i >= kept_from + kept))
            close(files[i]);
}

/* Takes over a stream socket and counts from 0. The line is zero, or was used for another and is flushed. */
static inline const char *line_use(struct line *l, int file)
{
    int flags = fcntl(file, F_GETFL);
    l->file = file;
    l->sent = 0;
    return flags < 0 || fcntl(file, F_SETFL, flags | O_NONBLOCK) < 0 ? "no socket" : NULL;
}

/* Puts the head of a frame into the queue, and makes room for the body. */
static inline const char *line_begin(struct line *l, unsigned kind, size_t length)
{
    if (length > LINE_MOST_BODY)
        return "a frame too long";
    if (l->room - l->tail < LINE_HEAD + length) {
        size_t room = 2 * l->room + LINE_HEAD + length;
        uint8_t *out = (uint8_t *)realloc(l->out, room);
        if (!out)
            return "no memory for what is to be sent";
        l->out = out;
        l->room = room;
    }
    l->out[l->tail++] = (uint8_t)kind;
    l->out[l->tail++] = (uint8_t)(length >> 8);
    l->out[l->tail++] = (uint8_t)length;
    l->sent += LINE_HEAD + length;
    return NULL;
}

/* Puts a frame into the queue. */
static inline const char *line_send(struct line *l, unsigned kind, const uint8_t *body, size_t length)
{
    const char *fault = line_begin(l, kind, length);
    if (fault)
        return fault;
    if (length)
        memcpy(l->out + l->tail, body, length);
    l->tail += length;
    return NULL;
}

/* Puts an element into the queue. */
static inline const char *line_send_element(struct line *l, const uint8_t *content, size_t length)
{
    const char *fault = line_begin(l, LINE_MESSAGE, TANDAWIRE_MESSAGE_HEAD + length);
    if (fault)
        return fault;
    tandawire_written w = tandawire_element_write(content, length, l->out, l->room, l->tail);
    l->tail = w.next;
    return w.refusal ? tandawire_refusal_text(w.refusal) : NULL;
}

/* Puts messages that lie end to end into the queue, each in a frame of its own. */
static inline const char *line_send_messages(struct line *l, const uint8_t *messages, size_t length)
{
    const char *fault = NULL;
    size_t at = 0;
    tandawire_message m;
    while (m = tandawire_message_at(messages, length, at), m.kind > TANDAWIRE_END && !fault) {
        fault = line_send(l, LINE_MESSAGE, messages + m.start, m.next - m.start);
        at = m.next;
    }
    return fault || !m.refusal ? fault : tandawire_refusal_text(m.refusal);
}

/* Whether a call that moved nothing may be tried again. */
static inline int line_may_go_on(void)
{
    return errno == EAGAIN || errno == EWOULDBLOCK || errno == EINTR;
}

/* Waits until the socket is ready, then writes from the queue and reads up to want bytes of a frame. */
static inline const char *line_turn(struct line *l, size_t want)
{
    int reads = l->have < want, writes = l->head < l->tail;
    struct pollfd ready = {l->file, (short)((reads ? POLLIN : 0) | (writes ? POLLOUT : 0)), 0};
    int number = poll(&ready, 1, LINE_SECONDS * 1000);
    if (number <= 0)
        return number < 0 && line_may_go_on() ? NULL : "the far end is silent";
    int broken = ready.revents & (POLLHUP | POLLERR | POLLNVAL); /* the calls below find out which */
    if (writes && (broken || ready.revents & POLLOUT)) {
        ssize_t moved = send(l->file, l->out + l->head, l->tail - l->head, MSG_NOSIGNAL);
        if (moved < 0 && !line_may_go_on())
            return "the far end takes nothing any more";
        l->head += moved > 0 ? (size_t)moved : 0;
        if (l->head == l->tail)
            l->head = l->tail = 0;
    }
    if (reads && (broken || ready.revents & POLLIN)) {
        ssize_t moved = recv(l->file, l->in + l->have, want - l->have, 0);
        if (moved == 0 || (moved < 0 && !line_may_go_on()))
            return "the far end has closed the line";
        l->have += moved > 0 ? (size_t)moved : 0;
    }
    return NULL;
}

/* Waits for a whole frame, and goes on writing meanwhile. It reads no byte beyond the frame. */
static inline const char *line_take(struct line *l, struct frame *f)
{
    size_t want = LINE_HEAD;
    l->have = 0;
    while (l->have < want) {
        const char *fault = line_turn(l, want);
        if (fault)
            return fault;
        if (l->have == LINE_HEAD)
            want = LINE_HEAD + ((size_t)l->in[1] << 8 | l->in[2]);
    }
    f->kind = l->in[0];
    f->body = l->in + LINE_HEAD;
    f->length = want - LINE_HEAD;
    return NULL;
}

/* Writes all that is in the queue. Only for when the far end is sure to read: this end does not. */
static inline const char *line_flush(struct line *l)
{
    const char *fault = NULL;
    while (!fault && l->head < l->tail)
        fault = line_turn(l, 0);
    return fault;
}

static inline void line_free(struct line *l)
{
    free(l->out);
    l->out = NULL;
    l->head = l->tail = l->room = 0;
}

#endif
