/* A hostile peer: damaged messages of every kind, in every state, and what the honest end answers.
 *
 * The honest end holds 300 elements. A peer that knows the protocol brings a session, honestly, to the
 * point where a message is due, and sends something else. One row an attack: what was sent, the state
 * before, the refusal, the state after, how many bytes went back, and what became of the session's
 * memory. Each row is checked; one that is not as it should be is marked with !, and the program ends
 * with 1. Then come 100,000 messages damaged at random, or as many as the argument says.
 *
 *     make hostile
 *
 * What a program has to do about such a peer is in lose_a_peer: drop the line, keep the table.
 */
#include "hostile.h"

static unsigned accepted, refused, wrong;
static struct message m;
static tandawire_filter filter;

/* Sends a message to a copy of a session and prints a row. From after: goes on where the last row ended. */
static void attack(const tandawire_session *from, const struct message *sent, const char *words, uint32_t refusal, uint32_t state, enum memory left)
{
    if (from != &after)
        after = *from;
    before = after;
    tandawire_stepped a = take(&after, sent->bytes, sent->length);
    enum memory memory = judge(sent->bytes, sent->length, a);
    int fine = a.refusal == refusal && a.next.state == state && memory == left && lawful(before.numbers.state, a);
    printf("%s %-55s %-18s %2u %-45s %-18s %6zu  %s\n", fine ? " " : "!", words, tandawire_state_text(before.numbers.state), (unsigned)a.refusal,
           tandawire_refusal_text(a.refusal), tandawire_state_text(a.next.state), a.sent, memory_texts[memory]);
    wrong += !fine;
    *(a.refusal ? &refused : &accepted) += 1;
}

/* Most attacks end the session and leave its memory as it was; some do no harm, and it goes on. */
static void aborts(const tandawire_session *from, const struct message *sent, const char *words, uint32_t refusal)
{
    attack(from, sent, words, refusal, TANDAWIRE_ABORTED, UNCHANGED);
}

static void goes_on(const tandawire_session *from, const struct message *sent, const char *words, enum memory left)
{
    attack(from, sent, words, TANDAWIRE_REFUSED_NONE, from->numbers.state, left);
}

/* ---- The attacks ---- */

/* Damage that a message of any kind can take. */
static void attack_frame(const struct scene *s)
{
    static const char *const ways[] = {"nothing at all",         "its first 3 bytes", "its last byte cut off", "MSG SIZE one too small",
                                       "MSG SIZE one too large", "MSG SIZE 0",        "type 569",              "two in one"};
    for (size_t way = 0; way < sizeof ways / sizeof ways[0]; way++) {
        char words[64];
        size_t n = s->due.length, lengths[] = {0, 3, n - 1, n, n, n, n, 2 * n}, sizes[] = {n, n, n, n - 1, n + 1, 0, n, n};
        forge_copy(&m, s->due.bytes, n, 0);
        memcpy(m.bytes + n, s->due.bytes, n);
        m.length = lengths[way];
        forge_size(&m, sizes[way]);
        if (way == 6)
            m.bytes[3] = 569 & 0xff;
        snprintf(words, sizeof words, "%s due: %s", tandawire_kind_text(tandawire_message_read(s->due.bytes, n).kind), ways[way]);
        aborts(&s->session, &m, words, TANDAWIRE_REFUSED_MALFORMED);
    }
}

/* In Passive Decoding this is so from the second message on: a filter may be the first. */
static int may_come(uint32_t state, uint32_t kind)
{
    int slice = kind == TANDAWIRE_IBF || kind == TANDAWIRE_IBF_LAST;
    if (state == TANDAWIRE_EXPECTING_IBF || state == TANDAWIRE_EXPECTING_IBF_LAST)
        return slice;
    if (state == TANDAWIRE_ACTIVE_DECODING || state == TANDAWIRE_PASSIVE_DECODING)
        return !slice && (kind != TANDAWIRE_INQUIRY || state == TANDAWIRE_PASSIVE_DECODING);
    return kind == TANDAWIRE_ELEMENT && state == TANDAWIRE_FINISH_WAITING;
}

/* Every kind that may not come in a state, as an honest peer would write it. */
static void attack_turn(const struct scene *s)
{
    static const int samples[] = {WAIT_SLICE, WAIT_FILTER, PASSIVE_INQUIRY, ACTIVE_OFFER, ACTIVE_DEMAND, ACTIVE_ELEMENT, ACTIVE_DONE};
    uint32_t state = s->session.numbers.state;
    int over = tandawire_session_is_over(&s->session);
    for (size_t i = 0; i < sizeof samples / sizeof samples[0]; i++) {
        uint32_t kind = points[samples[i]].kind;
        char words[64];
        snprintf(words, sizeof words, "an honest %s, %s", tandawire_kind_text(kind), over ? "after the end" : "out of turn");
        if (!may_come(state, kind))
            attack(&s->session, &scenes[samples[i]].due, words, TANDAWIRE_REFUSED_OUT_OF_TURN, over ? state : TANDAWIRE_ABORTED, UNCHANGED);
    }
    m.length = 0;
    if (over)
        attack(&s->session, &m, "nothing at all, after the end", TANDAWIRE_REFUSED_OUT_OF_TURN, state, UNCHANGED);
}

/* Slices whose numbers are wrong, alone or beside the slice before. */
static void attack_slices(void)
{
    const uint32_t width = scenes[WAIT_LAST].session.numbers.width, last = TANDAWIRE_IBF_LAST, part = TANDAWIRE_IBF;
    const struct { const char *words; int scene; uint32_t kind, size, offset, salt, width; } slices[] = {
        {"IBF LAST: 36 buckets", WAIT_FILTER, last, 36, 0, 0, 4},
        {"IBF: 4,097 buckets", WAIT_SLICE, part, 4097, 0, 0, 4},
        {"IBF LAST: salt 64", WAIT_FILTER, last, 241, 0, 64, 4},
        {"IBF LAST: counters of 0 bits", WAIT_FILTER, last, 241, 0, 0, 0},
        {"IBF LAST: counters of 33 bits", WAIT_FILTER, last, 241, 0, 0, 33},
        {"IBF LAST: offset 1", WAIT_FILTER, last, 241, 1, 0, 4},
        {"IBF LAST: offset 2,520, but no slice before it", WAIT_SLICE, last, 4093, 2520, 0, width},
        {"IBF LAST that does not reach the end", WAIT_SLICE, last, 4093, 0, 0, width},
        {"IBF that reaches the end", WAIT_FILTER, part, 241, 0, 0, 4},
        {"IBF: the first slice again", WAIT_LAST, part, 4093, 0, 0, width},
        {"IBF LAST: another size than the first slice", WAIT_LAST, last, 4095, 2520, 0, width},
        {"IBF LAST: another salt than the first slice", WAIT_LAST, last, 4093, 2520, 1, width},
        {"IBF LAST: another width than the first slice", WAIT_LAST, last, 4093, 2520, 0, width + 1},
        {"IBF LAST: a whole other filter after a first slice", WAIT_LAST, last, 241, 0, 0, 4},
    };
    for (size_t i = 0; i < sizeof slices / sizeof slices[0]; i++) {
        forge_slice(&m, slices[i].kind, slices[i].size, slices[i].offset, slices[i].salt, slices[i].width);
        aborts(&scenes[slices[i].scene].session, &m, slices[i].words, TANDAWIRE_REFUSED_MALFORMED);
    }
    forge_copy(&m, scenes[WAIT_FILTER].due.bytes, scenes[WAIT_FILTER].due.length, 1);
    aborts(&scenes[WAIT_FILTER].session, &m, "IBF LAST: a spare bit behind the counters set", TANDAWIRE_REFUSED_MALFORMED);
}

/* Both slices of a filter that invents so many elements. Our own are in it: the peer knows them all. */
static void attack_crowd(size_t number, uint32_t refusal, uint32_t state, enum memory left)
{
    static struct message second;
    char words[64];
    tandawire_filter_make(&filter, honest.store.table, store_table_length(&honest.store), 4093, 0);
    forge_crowd(&filter, number);
    forge_filter(&m, &filter);
    size_t cut = tandawire_message_at(m.bytes, m.length, 0).next;
    forge_copy(&second, m.bytes + cut, m.length - cut, 0);
    m.length = cut;
    snprintf(words, sizeof words, "IBF of a filter with %zu invented elements", number);
    attack(&scenes[WAIT_SLICE].session, &m, words, TANDAWIRE_REFUSED_NONE, TANDAWIRE_EXPECTING_IBF_LAST, WRITTEN);
    attack(&after, &second, "IBF LAST of the same", refusal, state, left);
}

/* Filters that are well made as messages, and lie. A swap costs us a filter; there are 16 of them. */
static void attack_readings(void)
{
    const tandawire_session *waits = &scenes[WAIT_FILTER].session, *passive = &scenes[PASSIVE_FILTER].session;
    const size_t room = TANDAWIRE_MOST_ELEMENTS - honest.store.number;
    tandawire_filter_make(&filter, honest.store.table, store_table_length(&honest.store), 241, 0);

    /* An ID in one of its places only: taken out of all three, it is lacking in two, and would be listed again. */
    uint64_t id = chance();
    uint32_t places[3] = {0};
    forge_places(id, filter.size, places);
    forge_put(&filter, places[0], id);
    forge_filter(&m, &filter);
    attack(waits, &m, "IBF LAST: contradicts itself", TANDAWIRE_REFUSED_FALSE, TANDAWIRE_PASSIVE_DECODING, CLEARED_AND_SWAPPED);
    attack(passive, &m, "IBF LAST: contradicts itself", TANDAWIRE_REFUSED_FALSE, TANDAWIRE_PASSIVE_DECODING, CLEARED_AND_SWAPPED);

    /* An ID that no COUNT speaks of: nothing can be taken out, and something is left. */
    filter.counts[places[0]]--;
    forge_filter(&m, &filter);
    attack(waits, &m, "IBF LAST: cannot be read to the end", TANDAWIRE_REFUSED_NONE, TANDAWIRE_PASSIVE_DECODING, SWAPPED);
    for (int time = 2; time <= TANDAWIRE_MOST_SWAPS; time++)
        take(&after, m.bytes, m.length);
    attack(&after, &m, "IBF LAST: the same for the 17th time", TANDAWIRE_REFUSED_SWAPS, TANDAWIRE_ABORTED, CLEARED);

    attack_crowd(room, TANDAWIRE_REFUSED_NONE, TANDAWIRE_ACTIVE_DECODING, WRITTEN);
    attack_crowd(room + 1, TANDAWIRE_REFUSED_LIMIT, TANDAWIRE_ABORTED, CLEARED);
}

static void attack_inquiries(void)
{
    const tandawire_session *s = &scenes[PASSIVE_INQUIRY].session;
    const uint8_t *held = pick(&honest.store, &peer.store, 0)->hash, *lacking = pick(&peer.store, &honest.store, 0)->hash;
    aborts(s, forge_inquiry(&m, 1, held, NULL), "INQUIRY: another salt than our filter's", TANDAWIRE_REFUSED_BREACH);
    aborts(s, forge_inquiry(&m, 64, held, NULL), "INQUIRY: salt 64", TANDAWIRE_REFUSED_MALFORMED);
    aborts(s, forge_inquiry(&m, 0, NULL, NULL), "INQUIRY: for no ID", TANDAWIRE_REFUSED_MALFORMED);
    aborts(s, forge_inquiry(&m, 0, held, held), "INQUIRY: an ID that we hold, twice", TANDAWIRE_REFUSED_BREACH);
    goes_on(s, forge_inquiry(&m, 0, lacking, lacking), "INQUIRY: an ID that we do not hold, twice", UNCHANGED);
    goes_on(s, forge_inquiry(&m, 0, held, lacking), "INQUIRY: an ID that we hold and one that we do not", WRITTEN);
    aborts(&after, &m, "INQUIRY: the same once more", TANDAWIRE_REFUSED_BREACH);
}

static void attack_offers(void)
{
    const tandawire_session *active = &scenes[ACTIVE_OFFER].session, *passive = &scenes[PASSIVE_OFFER].session;
    const uint8_t *held = pick(&honest.store, &peer.store, 1)->hash, *wanted = scenes[ACTIVE_OFFER].due.bytes + TANDAWIRE_MESSAGE_HEAD;
    uint8_t junk[TANDAWIRE_HASH_BYTES], sharing[TANDAWIRE_HASH_BYTES];
    forge_junk(junk);
    forge_junk(sharing);
    memcpy(sharing, wanted, 8);
    aborts(active, forge_hashes(&m, TANDAWIRE_OFFER, wanted, junk), "OFFER: one that we inquired and one that we did not", TANDAWIRE_REFUSED_BREACH);
    aborts(active, forge_hashes(&m, TANDAWIRE_OFFER, wanted, sharing), "OFFER: two hashes that share an ID", TANDAWIRE_REFUSED_BREACH);
    aborts(passive, &m, "OFFER: two hashes that share an ID", TANDAWIRE_REFUSED_BREACH);
    memcpy(sharing, held, 8);
    aborts(passive, forge_hashes(&m, TANDAWIRE_OFFER, sharing, NULL), "OFFER: a hash that shares its ID with one we hold", TANDAWIRE_REFUSED_BREACH);
    goes_on(active, forge_hashes(&m, TANDAWIRE_OFFER, held, held), "OFFER: one that we hold, twice", UNCHANGED);
    goes_on(active, forge_hashes(&m, TANDAWIRE_OFFER, wanted, wanted), "OFFER: one that we inquired, twice", WRITTEN);
    goes_on(&after, &m, "OFFER: the same once more", UNCHANGED);
    aborts(active, forge_begin(&m, TANDAWIRE_OFFER), "OFFER: of no hash", TANDAWIRE_REFUSED_MALFORMED);
    aborts(active, forge_bytes(&m, junk, TANDAWIRE_HASH_BYTES - 1), "OFFER: of a hash of 63 bytes", TANDAWIRE_REFUSED_MALFORMED);
}

/* Who waits passively asks for all that is offered, so it is the limit that ends this. */
static void attack_flood(void)
{
    uint8_t junk[TANDAWIRE_HASH_BYTES];
    after = scenes[PASSIVE_OFFER].session;
    for (int time = 1; time <= 4; time++) {
        forge_begin(&m, TANDAWIRE_OFFER);
        for (int i = 0; i < TANDAWIRE_MOST_HASHES; i++) {
            forge_junk(junk);
            forge_bytes(&m, junk, sizeof junk);
        }
        if (time < 4)
            goes_on(&after, &m, "OFFER: 1,023 invented hashes", WRITTEN);
        else
            aborts(&after, &m, "OFFER: 1,023 invented hashes, the fourth time", TANDAWIRE_REFUSED_LIMIT);
    }
}

static void attack_demands(const struct scene *s)
{
    const uint8_t *offered = s->due.bytes + TANDAWIRE_MESSAGE_HEAD, *held = pick(&honest.store, &peer.store, 1)->hash;
    uint8_t junk[TANDAWIRE_HASH_BYTES];
    forge_junk(junk);
    aborts(&s->session, forge_hashes(&m, TANDAWIRE_DEMAND, offered, junk), "DEMAND: one that we offered, one that we lack", TANDAWIRE_REFUSED_BREACH);
    aborts(&s->session, forge_hashes(&m, TANDAWIRE_DEMAND, held, NULL), "DEMAND: one that we hold and never offered", TANDAWIRE_REFUSED_BREACH);
    aborts(&s->session, forge_hashes(&m, TANDAWIRE_DEMAND, offered, offered), "DEMAND: one that we offered, twice", TANDAWIRE_REFUSED_BREACH);
    after = s->session;
    take(&after, s->due.bytes, s->due.length);
    aborts(&after, &s->due, "DEMAND: an honest one, sent twice", TANDAWIRE_REFUSED_BREACH);
}

static void attack_elements(const struct scene *s)
{
    const struct element *held = pick(&honest.store, &peer.store, 1);
    aborts(&s->session, forge_begin(&m, TANDAWIRE_ELEMENT), "ELEMENT: empty", TANDAWIRE_REFUSED_MALFORMED);
    aborts(&s->session, forge_bytes(&m, "buy now", 7), "ELEMENT: nobody demanded it", TANDAWIRE_REFUSED_BREACH);
    forge_bytes(forge_begin(&m, TANDAWIRE_ELEMENT), held->content, held->length);
    aborts(&s->session, &m, "ELEMENT: one that we hold", TANDAWIRE_REFUSED_BREACH);
    forge_copy(&m, s->due.bytes, s->due.length, 0x80);
    aborts(&s->session, &m, "ELEMENT: one that we demanded, a bit of it changed", TANDAWIRE_REFUSED_BREACH);
    after = s->session;
    take(&after, s->due.bytes, s->due.length);
    aborts(&after, &s->due, "ELEMENT: an honest one, sent twice", TANDAWIRE_REFUSED_BREACH);
}

static void attack_done(const struct scene *s)
{
    forge_copy(&m, s->due.bytes, s->due.length, 1);
    aborts(&s->session, &m, "DONE: a bit of the checksum wrong", TANDAWIRE_REFUSED_CHECKSUM);
    aborts(&s->session, forge_begin(&m, TANDAWIRE_DONE), "DONE: of 4 bytes", TANDAWIRE_REFUSED_MALFORMED);
}

/* DONE at times that an honest peer would not choose. */
static void attack_early_done(void)
{
    const struct message *done = &scenes[PASSIVE_DONE].due;
    const tandawire_session *first = &scenes[PASSIVE_INQUIRY].session, *owes = &scenes[PASSIVE_ELEMENT].session;
    uint8_t sum[TANDAWIRE_HASH_BYTES] = {0};
    for (size_t i = 0; i < store_table_length(&honest.store); i++)
        sum[i % sizeof sum] ^= honest.store.table[i];
    aborts(&scenes[ACTIVE_OFFER].session, done, "DONE: before ours went", TANDAWIRE_REFUSED_OUT_OF_TURN);
    aborts(first, done, "DONE: at once, the checksum that of the union", TANDAWIRE_REFUSED_CHECKSUM);
    forge_hashes(&m, TANDAWIRE_DONE, sum, NULL);
    attack(first, &m, "DONE: at once, the checksum our own", TANDAWIRE_REFUSED_NONE, TANDAWIRE_FINISHED, WRITTEN);
    attack(owes, &m, "DONE: elements are owed, the checksum wrong", TANDAWIRE_REFUSED_NONE, TANDAWIRE_FINISH_WAITING, WRITTEN);
    for (size_t i = 0, owed = after.numbers.demanded; owed && i < peer.store.number; i++) {
        const struct element *e = &peer.store.elements[i];
        if (store_find(&honest.store, e->hash))
            continue;
        forge_bytes(forge_begin(&m, TANDAWIRE_ELEMENT), e->content, e->length);
        if (--owed)
            take(&after, m.bytes, m.length);
    }
    aborts(&after, &m, "ELEMENT: the last one owed, after that DONE", TANDAWIRE_REFUSED_CHECKSUM);
}

static void attack_all(void)
{
    static const int states[] = {WAIT_FILTER, WAIT_LAST, ACTIVE_OFFER, PASSIVE_OFFER, WAITING_ELEMENT, OVER_FINISHED, OVER_ABORTED};
    printf("  %-55s %-18s %-48s %-18s %6s  %s\n", "what was sent", "state before", "refusal", "state after", "bytes", "memory");
    for (size_t i = 0; i <= WAITING_ELEMENT; i++)
        attack_frame(&scenes[i]);
    for (size_t i = 0; i < sizeof states / sizeof states[0]; i++)
        attack_turn(&scenes[states[i]]);
    attack_slices();
    attack_readings();
    attack_inquiries();
    attack_offers();
    attack_flood();
    attack_demands(&scenes[ACTIVE_DEMAND]);
    attack_demands(&scenes[PASSIVE_DEMAND]);
    attack_elements(&scenes[ACTIVE_ELEMENT]);
    attack_elements(&scenes[PASSIVE_ELEMENT]);
    attack_elements(&scenes[WAITING_ELEMENT]);
    attack_done(&scenes[ACTIVE_DONE]);
    attack_done(&scenes[PASSIVE_DONE]);
    attack_early_done();
    /* 4 and 8 are no states. No step answers them: here the caller has spoilt its session, not the peer. */
    for (uint32_t number = 4; number <= 8; number += 4) {
        after = scenes[WAITING_ELEMENT].session;
        after.numbers.state = number;
        attack(&after, &scenes[WAITING_ELEMENT].due, "ELEMENT: an honest one, in a state that there is not", TANDAWIRE_REFUSED_FORM, number, UNCHANGED);
    }
}

/* ---- Chance ---- */

/* Messages damaged at random, on every scene. Refusals 4, 5, 7 and 8 leave memory as it was, so only the
 * numbers are put back after one; that this is true is seen when the scene is over. */
static void damage(unsigned long number)
{
    unsigned long counts[TANDAWIRE_REFUSED_LIMIT + 1] = {0}, unlawful = 0;
    for (unsigned long i = 0; i < SCENES; i++) {
        before = after = scenes[i].session;
        for (unsigned long n = number * i / SCENES; n < number * (i + 1) / SCENES; n++) {
            forge_damage(&m, &scenes[i].due, &scenes[chance() % SCENES].due);
            tandawire_stepped a = take(&after, m.bytes, m.length);
            int left = a.refusal == TANDAWIRE_REFUSED_MALFORMED || a.refusal == TANDAWIRE_REFUSED_OUT_OF_TURN ||
                       a.refusal == TANDAWIRE_REFUSED_BREACH || a.refusal == TANDAWIRE_REFUSED_CHECKSUM;
            unlawful += !lawful(before.numbers.state, a) || (!left && judge(m.bytes, m.length, a) == SPOILT);
            counts[a.refusal <= TANDAWIRE_REFUSED_LIMIT ? a.refusal : TANDAWIRE_REFUSED_FORM]++;
            if (left)
                after.numbers = before.numbers;
            else
                after = before;
        }
        unlawful += judge(NULL, 0, (tandawire_stepped){0}) != UNCHANGED;
    }
    printf("\n%lu messages damaged at random, in every state:\n", number);
    for (uint32_t r = 0; r <= TANDAWIRE_REFUSED_LIMIT; r++)
        printf("%8lu  %2u %s\n", counts[r], (unsigned)r, tandawire_refusal_text(r));
    printf("%lu of the answers were not as they may be.\n", unlawful);
    wrong += unlawful > 0;
}

/* ---- What a program does ---- */

/* A peer that turns hostile when 12 elements have come. An aborted session wants three things: send
 * nothing more and drop the line; keep the table, which no step has touched; and decide on what was
 * gained. That may be kept, as here, or dropped: it is what we demanded, each by its hash. */
static void lose_a_peer(void)
{
    size_t at = 0, gained = 0, held = 0;
    play(RECEIVER, 1, 12);
    forge_bytes(forge_begin(&m, TANDAWIRE_ELEMENT), "buy now", 7);
    tandawire_stepped a = take(&honest.session, m.bytes, m.length);
    honest.in.head = honest.in.tail = 0;
    for (const uint8_t *hash; (hash = tandawire_session_gained(&honest.session, &at)) != NULL; gained++)
        held += store_find(&honest.store, hash) && store_find(&peer.store, hash);
    wrong += a.next.state != TANDAWIRE_ABORTED || gained != 12 || held != 12 || honest.store.gained != 12;
    printf("\nA peer turns hostile after %zu elements: %s, %s. The line is dropped; the table is kept, and so are these elements.\n", gained,
           tandawire_refusal_text(a.refusal), tandawire_state_text(a.next.state));
    store_settle(&honest.store);
    store_settle(&peer.store);
}

/* Those that honest runs meet, and three more: DONE before the elements owed, which is allowed, and both
 * ends of a session. */
static void make_scenes(void)
{
    for (uint32_t run = 0; run < RUNS; run++)
        play(run, 0, SIZE_MAX);
    for (size_t i = 0; i < MET_BY_RUNS; i++)
        wrong += !scenes[i].met;
    scenes[WAITING_ELEMENT] = scenes[PASSIVE_ELEMENT];
    scenes[OVER_FINISHED] = scenes[OVER_ABORTED] = scenes[ACTIVE_DONE];
    take(&scenes[WAITING_ELEMENT].session, scenes[PASSIVE_DONE].due.bytes, scenes[PASSIVE_DONE].due.length);
    take(&scenes[OVER_FINISHED].session, scenes[ACTIVE_DONE].due.bytes, scenes[ACTIVE_DONE].due.length);
    take(&scenes[OVER_ABORTED].session, NULL, 0);
}

int main(int argc, char **argv)
{
    static struct store same, both; /* what the honest end holds, and what both do: to compare with */
    hold(&honest.store, 0, 300);
    hold(&peer.store, 30, 300);
    hold(&same, 0, 300);
    hold(&both, 0, 330);

    make_scenes();
    attack_all();
    damage(argc > 1 ? strtoul(argv[1], NULL, 10) : 100000);
    int kept = honest.store.gained == 0 && memcmp(same.table, honest.store.table, sizeof same.table) == 0;

    lose_a_peer();
    play(SENDER, 1, SIZE_MAX);
    store_settle(&honest.store);
    store_settle(&peer.store);
    int united = tandawire_session_is_finished(&honest.session) && tandawire_session_is_finished(&peer.session) &&
                 memcmp(both.table, honest.store.table, sizeof both.table) == 0 && memcmp(both.table, peer.store.table, sizeof both.table) == 0;
    printf("%u attacks: %u accepted as harmless, %u refused, %u not answered as they should be. The honest store is %s. "
           "After all this an honest session %s.\n",
           accepted + refused, accepted, refused, wrong, kept ? "unchanged but for elements that it asked for" : "NOT WHAT IT WAS",
           united ? "still ends with the union" : "DOES NOT END WITH THE UNION");
    store_free(&honest.store);
    store_free(&peer.store);
    store_free(&same);
    store_free(&both);
    return wrong || !kept || !united;
}
