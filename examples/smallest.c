/* The smallest session: two peers in one program, joined by two queues of bytes.
 *
 * Anna and Bert each hold a few lines of verse. They share most of them, each has some that the other
 * lacks, and afterwards both hold all. Read main first, then serve, which is all that a program must do
 * for a session; the rest stands in for a network and a data base.
 *
 *     make demo
 */
#include <stdio.h>

#include "store.h"

/* A line in one direction. A real one is a socket; messages may arrive in any pieces there, and
 * tandawire_message_bytes says how long the next one is. */
struct line {
    uint8_t bytes[1 << 20];
    size_t head, tail;
};

static void send_bytes(struct line *line, const uint8_t *bytes, size_t length)
{
    memcpy(line->bytes + line->tail, bytes, length);
    line->tail += length;
}

struct peer {
    const char *name;
    struct store store;
    tandawire_session session;
    struct line *in, *out;
};

/* Sends what a start or a step says is to be sent: messages as they are, then each element due. */
static void send_answer(struct peer *p, tandawire_stepped a)
{
    send_bytes(p->out, p->session.out, a.sent);
    for (size_t i = 0; i < a.due; i++) {
        const struct element *e = store_find(&p->store, tandawire_session_due(&p->session, i));
        tandawire_written w = tandawire_element_write(e->content, e->length, p->out->bytes, sizeof p->out->bytes, p->out->tail);
        if (w.refusal) { /* the far end would wait for it: the session must be dropped */
            fprintf(stderr, "%s cannot send an element: %s\n", p->name, tandawire_refusal_text(w.refusal));
            exit(1);
        }
        p->out->tail = w.next;
    }
}

/* Takes one message that came. This is the heart of every program that uses the library. */
static void serve(struct peer *p)
{
    const uint8_t *message = p->in->bytes + p->in->head;
    size_t length = tandawire_message_bytes(message);
    uint8_t hash[TANDAWIRE_HASH_BYTES];

    /* The library makes no hashes: that of an element that comes is ours to work out. */
    tandawire_part content = tandawire_element_content(message, length);
    if (content.bytes)
        sha512(content.bytes, content.length, hash);

    tandawire_stepped a = tandawire_session_step(&p->session, message, length, content.bytes ? hash : NULL);
    printf("%s takes %-8s of %5zu bytes: %s, now %s\n", p->name, tandawire_kind_text(tandawire_message_read(message, length).kind), length,
           tandawire_refusal_text(a.refusal), tandawire_state_text(a.next.state));

    /* Only an element that the session took is kept: nobody can fill our store with what we did not ask for. */
    if (content.bytes && a.refusal == TANDAWIRE_REFUSED_NONE)
        store_gain(&p->store, content.bytes, content.length);
    p->in->head += length;
    send_answer(p, a);
}

static void hold(struct peer *p, const char *name, const char *const *verses, size_t number, struct line *in, struct line *out)
{
    p->name = name;
    p->in = in;
    p->out = out;
    for (size_t i = 0; i < number; i++)
        store_gain(&p->store, (const uint8_t *)verses[i], strlen(verses[i]));
    store_settle(&p->store);
}

int main(void)
{
    /* Anna has the first six, Bert the last six. Static: a session takes about 0.75 MB, a store 0.5 MB. */
    static const char *const verses[] = {"Voi che sapete",       "che cosa e amor,",   "donne, vedete",     "s'io l'ho nel cor.",
                                         "Quello ch'io provo",   "vi ridiro;",         "e per me nuovo,",   "capir nol so."};
    static struct peer anna, bert;
    static struct line to_anna, to_bert;
    hold(&anna, "Anna", verses, 6, &to_anna, &to_bert);
    hold(&bert, "Bert", verses + 2, 6, &to_bert, &to_anna);

    /* Bert waits; Anna sends her filter. Both know nothing of the difference, so she takes the least size. */
    tandawire_stepped b = tandawire_session_start_receiver(&bert.session, bert.store.table, store_table_length(&bert.store));
    tandawire_stepped a = tandawire_session_start_sender(&anna.session, anna.store.table, store_table_length(&anna.store), TANDAWIRE_LEAST_SIZE, 0);
    if (a.refusal || b.refusal) {
        fprintf(stderr, "not started: %s, %s\n", tandawire_refusal_text(a.refusal), tandawire_refusal_text(b.refusal));
        return 1;
    }
    send_answer(&anna, a);

    /* Each takes what has come, until nothing is on its way. */
    while (to_bert.head < to_bert.tail || to_anna.head < to_anna.tail)
        serve(to_bert.head < to_bert.tail ? &bert : &anna);

    store_settle(&anna.store);
    store_settle(&bert.store);
    int same = anna.store.number == bert.store.number && memcmp(anna.store.table, bert.store.table, store_table_length(&anna.store)) == 0;
    printf("Anna holds %zu, Bert holds %zu: %s. %zu bytes went over the line.\n", anna.store.number, bert.store.number,
           same ? "the same" : "NOT the same", to_anna.tail + to_bert.tail);
    int fine = same && anna.store.number == 8 && tandawire_session_is_finished(&anna.session) && tandawire_session_is_finished(&bert.session);
    store_free(&anna.store);
    store_free(&bert.store);
    return fine ? 0 : 1;
}
