/* For examples/hostile.c: the tools of a hostile peer (messages made byte by byte, filters that lie,
 * chance), the stage (honest sessions, stopped where a message is due), and the judge of what a step
 * left. */
#ifndef EXAMPLES_HOSTILE_H
#define EXAMPLES_HOSTILE_H

#include "store.h"

/* ---- Tools ---- */

/* A message, or what is to pass for one. There is room for two of the longest. */
struct message {
    uint8_t bytes[1 << 17];
    size_t length;
};

/* The same numbers in every run, so that every run prints the same (xorshift64). */
static inline uint64_t chance(void)
{
    static uint64_t x = 88172645463325252u;
    x ^= x << 13;
    x ^= x >> 7;
    return x ^= x << 17;
}

/* Writes MSG SIZE, true or not. */
static inline void forge_size(struct message *m, size_t size)
{
    m->bytes[0] = (uint8_t)(size >> 8);
    m->bytes[1] = (uint8_t)size;
}

static inline struct message *forge_bytes(struct message *m, const void *bytes, size_t length)
{
    memcpy(m->bytes + m->length, bytes, length);
    m->length += length;
    forge_size(m, m->length);
    return m;
}

/* A number of so many bytes, most significant first. */
static inline void forge_number(struct message *m, uint64_t value, size_t bytes)
{
    uint8_t number[8];
    for (size_t i = 0; i < bytes; i++)
        number[i] = (uint8_t)(value >> 8 * (bytes - 1 - i));
    forge_bytes(m, number, bytes);
}

/* A message of a kind, of which there are only the four bytes yet. */
static inline struct message *forge_begin(struct message *m, uint32_t kind)
{
    m->length = 2;
    forge_number(m, kind, 2);
    return m;
}

/* A message as it was, with some bits of its last byte changed. */
static inline struct message *forge_copy(struct message *m, const uint8_t *bytes, size_t length, uint8_t bits)
{
    memcpy(m->bytes, bytes, length);
    m->length = length;
    m->bytes[length - 1] ^= bits;
    return m;
}

/* One hash or two: most forged offers and demands need no more. */
static inline struct message *forge_hashes(struct message *m, uint32_t kind, const uint8_t *one, const uint8_t *two)
{
    forge_bytes(forge_begin(m, kind), one, TANDAWIRE_HASH_BYTES);
    return two ? forge_bytes(m, two, TANDAWIRE_HASH_BYTES) : m;
}

/* A hash that is nobody's. */
static inline void forge_junk(uint8_t hash[TANDAWIRE_HASH_BYTES])
{
    for (size_t i = 0; i < TANDAWIRE_HASH_BYTES; i++)
        hash[i] = (uint8_t)(chance() >> 32);
}

/* An INQUIRY for the IDs of no hash, one or two: an ID is the first eight bytes. */
static inline struct message *forge_inquiry(struct message *m, uint32_t salt, const uint8_t *one, const uint8_t *two)
{
    forge_number(forge_begin(m, TANDAWIRE_INQUIRY), salt, 4);
    if (one)
        forge_bytes(m, one, 8);
    return two ? forge_bytes(m, two, 8) : m;
}

/* A slice of empty buckets, as long as its own numbers say, so that nothing but these can be wrong. */
static inline struct message *forge_slice(struct message *m, uint32_t kind, uint32_t size, uint32_t offset, uint32_t salt, uint32_t width)
{
    size_t n = size > offset ? size - offset : 0;
    if (n > TANDAWIRE_SLICE_PLACES)
        n = TANDAWIRE_SLICE_PLACES;
    forge_number(forge_begin(m, kind), size, 4);
    forge_number(m, offset, 4);
    forge_number(m, salt, 2);
    forge_number(m, width, 2);
    memset(m->bytes + m->length, 0, 12 * n + (n * width + 7) / 8);
    m->length += 12 * n + (n * width + 7) / 8;
    forge_size(m, m->length);
    return m;
}

/* The messages of a filter, one or two, end to end. */
static inline struct message *forge_filter(struct message *m, const tandawire_filter *f)
{
    m->length = tandawire_filter_put(f, m->bytes, sizeof m->bytes, 0).next;
    return m;
}

/* The CRC-32 of an ID's eight bytes, which fills HASHSUM and chooses places. */
static inline uint32_t forge_crc(uint64_t id)
{
    uint32_t crc = 0xffffffff;
    for (int shift = 56; shift >= 0; shift -= 8) {
        crc ^= (uint32_t)(id >> shift) & 0xff;
        for (int bit = 0; bit < 8; bit++)
            crc = crc >> 1 ^ (crc & 1 ? 0xedb88320 : 0);
    }
    return ~crc;
}

/* The three places of an ID at salt 0; 0 if 64 draws do not give them. */
static inline int forge_places(uint64_t id, uint32_t size, uint32_t places[3])
{
    uint32_t draw = forge_crc(id);
    int found = 0;
    for (uint64_t i = 0; i < 64 && found < 3; i++) {
        uint32_t place = draw % size;
        if ((found < 1 || places[0] != place) && (found < 2 || places[1] != place))
            places[found++] = place;
        draw = forge_crc((uint64_t)draw << 32 | i);
    }
    return found == 3;
}

/* Puts an ID into one bucket. An honest filter has it in three, and a bucket's sums fit its COUNT. */
static inline void forge_put(tandawire_filter *f, uint32_t place, uint64_t id)
{
    f->ids[place] ^= id;
    f->hashes[place] ^= forge_crc(id);
    f->counts[place]++;
}

/* Puts so many invented elements into a filter, many more than it could show if they were left to
 * chance: each takes just one bucket that none has before it, so all can be listed, the last one first.
 * The first hundred may take more, to have something to begin with. */
static inline void forge_crowd(tandawire_filter *f, size_t number)
{
    uint8_t taken[TANDAWIRE_MOST_SIZE] = {0};
    uint32_t places[3];
    for (size_t made = 0; made < number;) {
        uint64_t id = chance();
        int found = forge_places(id, f->size, places);
        int fresh = found ? !taken[places[0]] + !taken[places[1]] + !taken[places[2]] : 0;
        if (fresh == 0 || (fresh > 1 && made >= 100))
            continue;
        for (int i = 0; i < 3; i++) {
            forge_put(f, places[i], id);
            taken[places[i]] = 1;
        }
        made++;
    }
}

/* Damages an honest message by chance: flips bits, cuts it, or goes on as another message does. Half of
 * the flips fall on its first bytes, where its numbers are; half of what was cut or joined gets a fitting
 * MSG SIZE, or nothing but that would ever be found wrong. */
static inline void forge_damage(struct message *m, const struct message *from, const struct message *other)
{
    forge_copy(m, from->bytes, from->length, 0);
    uint64_t way = chance() % 3;
    if (way == 0) {
        for (uint64_t flips = 1 + chance() % 4; flips; flips--) {
            size_t reach = chance() % 2 && m->length > 16 ? 16 : m->length;
            m->bytes[chance() % reach] ^= (uint8_t)(1 << chance() % 8);
        }
        return;
    }
    m->length = chance() % m->length;
    if (way == 2) {
        size_t at = chance() % other->length;
        memcpy(m->bytes + m->length, other->bytes + at, other->length - at);
        m->length += other->length - at;
    }
    if (chance() % 2 && m->length >= TANDAWIRE_MESSAGE_HEAD && m->length <= TANDAWIRE_MOST_MESSAGE)
        forge_size(m, m->length);
}

/* ---- The stage ---- */

/* A line in one direction, as in smallest.c. */
struct line {
    uint8_t bytes[1 << 20];
    size_t head, tail;
};

struct peer {
    struct store store;
    tandawire_session session;
    struct line in;
};

static struct peer honest, peer;

static inline void hold(struct store *s, int first, int number)
{
    for (int i = first; i < first + number; i++) {
        char content[32];
        int length = snprintf(content, sizeof content, "element %d", i);
        store_gain(s, (const uint8_t *)content, (size_t)length);
    }
    store_settle(s);
}

/* An element of one store that the other holds too, or does not. */
static inline const struct element *pick(const struct store *of, const struct store *other, int shared)
{
    size_t i = 0;
    while ((store_find(other, of->elements[i].hash) != NULL) != shared)
        i++;
    return &of->elements[i];
}

/* The points at which attacks begin: how the session was started, the state, and the message due. */
enum { RECEIVER, LARGE_RECEIVER, SENDER, SMALL_SENDER, RUNS };
enum {
    WAIT_FILTER, WAIT_SLICE, WAIT_LAST, ACTIVE_OFFER, ACTIVE_DEMAND, ACTIVE_ELEMENT, ACTIVE_DONE, PASSIVE_INQUIRY,
    PASSIVE_OFFER, PASSIVE_DEMAND, PASSIVE_ELEMENT, PASSIVE_DONE, PASSIVE_FILTER, MET_BY_RUNS,
    WAITING_ELEMENT = MET_BY_RUNS, OVER_FINISHED, OVER_ABORTED, SCENES
};
static const struct { uint32_t run, state, kind; } points[MET_BY_RUNS] = {
    {RECEIVER, TANDAWIRE_EXPECTING_IBF, TANDAWIRE_IBF_LAST},
    {LARGE_RECEIVER, TANDAWIRE_EXPECTING_IBF, TANDAWIRE_IBF},
    {LARGE_RECEIVER, TANDAWIRE_EXPECTING_IBF_LAST, TANDAWIRE_IBF_LAST},
    {RECEIVER, TANDAWIRE_ACTIVE_DECODING, TANDAWIRE_OFFER},
    {RECEIVER, TANDAWIRE_ACTIVE_DECODING, TANDAWIRE_DEMAND},
    {RECEIVER, TANDAWIRE_ACTIVE_DECODING, TANDAWIRE_ELEMENT},
    {RECEIVER, TANDAWIRE_ACTIVE_DECODING, TANDAWIRE_DONE},
    {SENDER, TANDAWIRE_PASSIVE_DECODING, TANDAWIRE_INQUIRY},
    {SENDER, TANDAWIRE_PASSIVE_DECODING, TANDAWIRE_OFFER},
    {SENDER, TANDAWIRE_PASSIVE_DECODING, TANDAWIRE_DEMAND},
    {SENDER, TANDAWIRE_PASSIVE_DECODING, TANDAWIRE_ELEMENT},
    {SENDER, TANDAWIRE_PASSIVE_DECODING, TANDAWIRE_DONE},
    {SMALL_SENDER, TANDAWIRE_PASSIVE_DECODING, TANDAWIRE_IBF_LAST},
};

/* The honest end's session as it stands there, and the honest message. A session is one struct: a copy
 * of it is a session of its own, so many things can be tried on the same one. */
struct scene {
    int met;
    tandawire_session session;
    struct message due;
};

static struct scene scenes[SCENES];

static inline void send_answer(struct peer *from, struct line *to, tandawire_stepped a)
{
    memcpy(to->bytes + to->tail, from->session.out, a.sent);
    to->tail += a.sent;
    for (size_t i = 0; i < a.due; i++) {
        const struct element *e = store_find(&from->store, tandawire_session_due(&from->session, i));
        tandawire_written w = tandawire_element_write(e->content, e->length, to->bytes, sizeof to->bytes, to->tail);
        if (w.refusal == TANDAWIRE_REFUSED_NONE)
            to->tail = w.next;
    }
}

/* Hands a message to a session. The hash of an element is the caller's to work out: an attacker's word
 * for it would be worth nothing. */
static inline tandawire_stepped take(tandawire_session *s, const uint8_t *message, size_t length)
{
    uint8_t hash[TANDAWIRE_HASH_BYTES] = {0};
    tandawire_part content = tandawire_element_content(message, length);
    if (content.bytes)
        sha512(content.bytes, content.length, hash);
    return tandawire_session_step(s, message, length, hash);
}

/* Takes the next message of the line. With keep, elements go to the store. */
static inline void serve(struct peer *p, struct peer *other, int keep)
{
    const uint8_t *message = p->in.bytes + p->in.head;
    size_t length = tandawire_message_bytes(message);
    tandawire_part content = tandawire_element_content(message, length);
    tandawire_stepped a = take(&p->session, message, length);
    if (keep && content.bytes && a.refusal == TANDAWIRE_REFUSED_NONE)
        store_gain(&p->store, content.bytes, content.length);
    p->in.head += length;
    send_answer(p, &other->in, a);
}

/* Starts both ends. Their memory is filled with something first: then what a call clears, and what it
 * leaves alone, can be told apart. The library does not mind what was there. */
static inline void start(uint32_t run)
{
    struct peer *sender = run >= SENDER ? &honest : &peer, *receiver = run >= SENDER ? &peer : &honest;
    uint32_t size = run == LARGE_RECEIVER ? 4093 : run == SMALL_SENDER ? TANDAWIRE_LEAST_SIZE : tandawire_size_for(tandawire_known(60), 4);
    memset(&honest.session, 0x5a, sizeof honest.session);
    memset(&peer.session, 0x5a, sizeof peer.session);
    honest.in.head = honest.in.tail = peer.in.head = peer.in.tail = 0;
    tandawire_session_start_receiver(&receiver->session, receiver->store.table, store_table_length(&receiver->store));
    send_answer(sender, &receiver->in,
                tandawire_session_start_sender(&sender->session, sender->store.table, store_table_length(&sender->store), size, 0));
}

/* Keeps the honest end's session if it stands at one of the points. */
static inline void keep_scene(uint32_t run)
{
    const uint8_t *message = honest.in.bytes + honest.in.head;
    size_t length = tandawire_message_bytes(message);
    for (size_t i = 0; i < MET_BY_RUNS; i++)
        if (!scenes[i].met && points[i].run == run && points[i].state == honest.session.numbers.state &&
            points[i].kind == tandawire_message_read(message, length).kind) {
            scenes[i].met = 1;
            scenes[i].session = honest.session;
            forge_copy(&scenes[i].due, message, length, 0);
        }
}

/* Runs a session until nothing is on its way, or until the honest store has gained so many elements. */
static inline void play(uint32_t run, int keep, size_t enough)
{
    start(run);
    while (honest.in.head < honest.in.tail || peer.in.head < peer.in.tail)
        if (honest.in.head == honest.in.tail)
            serve(&peer, &honest, keep);
        else if (honest.store.gained < enough) {
            keep_scene(run);
            serve(&honest, &peer, keep);
        } else
            return;
}

/* ---- The judge ---- */

enum memory { UNCHANGED, CLEARED, SWAPPED, CLEARED_AND_SWAPPED, WRITTEN, SPOILT };
static const char *const memory_texts[] = {"unchanged", "columns and lists cleared", "swapped", "cleared, swapped", "written", "SPOILT"};
static tandawire_session before, after;

static inline int lists_same(size_t from)
{
    size_t n = TANDAWIRE_SESSION_PLACES - from;
    return !memcmp(before.ids + from, after.ids + from, n * sizeof after.ids[0]) &&
           !memcmp(before.hashes + from, after.hashes + from, n * sizeof after.hashes[0]) &&
           !memcmp(before.counts + from, after.counts + from, n * sizeof after.counts[0]) &&
           !memcmp(before.ours + from, after.ours + from, n * sizeof after.ours[0]) &&
           !memcmp(before.theirs + from, after.theirs + from, n * sizeof after.theirs[0]);
}

static inline int lists_zero(size_t places)
{
    for (size_t i = 0; i < places; i++)
        if (after.ids[i] || after.hashes[i] || after.counts[i] || after.ours[i] || after.theirs[i])
            return 0;
    return places > 0;
}

/* What a step made of the memory that was lent to it. Columns and lists may be written in the places of
 * the filter that came, and out as far as there is something to send; the table not at all. */
static inline enum memory judge(const uint8_t *message, size_t length, tandawire_stepped a)
{
    size_t places = tandawire_message_read(message, length).size, written = a.sent + a.due * TANDAWIRE_HASH_BYTES;
    uint32_t first = tandawire_message_at(after.out, a.sent, 0).kind;
    int filter = first == TANDAWIRE_IBF || first == TANDAWIRE_IBF_LAST, zero = lists_zero(places);
    int ledger = !memcmp(before.records, after.records, sizeof after.records) && !memcmp(before.marks, after.marks, sizeof after.marks) &&
                 !memcmp(before.inquired, after.inquired, sizeof after.inquired);
    if (!lists_same(places) || memcmp(before.out + written, after.out + written, sizeof after.out - written))
        return SPOILT;
    if (ledger && written == 0 && lists_same(0))
        return UNCHANGED;
    if (ledger && filter)
        return zero ? CLEARED_AND_SWAPPED : SWAPPED;
    return ledger && written == 0 && zero ? CLEARED : WRITTEN;
}

/* Whether an answer is one that a state may have to anything at all. 1, 2 and 3 are faults of the
 * caller: nothing that a peer sends may bring them about. A number that is no state's is such a fault. */
static inline int lawful(uint32_t was, tandawire_stepped a)
{
    int over = was == TANDAWIRE_FINISHED || was == TANDAWIRE_ABORTED, none = was == 4 || was > TANDAWIRE_ABORTED;
    if (over || none)
        return a.refusal == (over ? TANDAWIRE_REFUSED_OUT_OF_TURN : TANDAWIRE_REFUSED_FORM) && a.next.state == was && a.sent + a.due == 0;
    if (a.refusal == TANDAWIRE_REFUSED_NONE)
        return a.next.state != TANDAWIRE_ABORTED;
    if (a.refusal == TANDAWIRE_REFUSED_FALSE)
        return a.next.state == TANDAWIRE_PASSIVE_DECODING && a.sent > 0;
    return a.refusal > TANDAWIRE_REFUSED_RANGE && a.next.state == TANDAWIRE_ABORTED && a.sent + a.due == 0;
}

#endif
