/* Eleven peers, each a process of its own with a random table of its own, that come to hold the same by
 * sessions of two over local sockets.
 *
 *     eleven [SEED [ELEMENTS]]        11 to 4,096 elements in all; 3,000 if not given
 *
 * Most elements are held by nearly all at first, each of the others by one to three, and one peer begins
 * with nothing. What is printed depends on the two numbers alone. Read meet first: it is a whole session.
 *
 * The schedule. A session leaves both of its ends with the union of what they held. In round 1 peers 8, 9
 * and 10 meet 0, 1 and 2: then the first eight hold all between them. In rounds 2, 3 and 4 each of the
 * eight meets the one whose number differs from its own in bit 0, then 1, then 2: it holds what two, then
 * four, then all eight held. In round 5 peers 8, 9 and 10 come back for the rest. That is 18 sessions in 5
 * rounds, and eleven cannot do with fewer of either (2n - 4 calls, and for odd n one round more than the
 * logarithm, are the known least of the gossip problem). The sessions of a round run at the same time, but
 * nobody keeps the rounds: each peer works down the schedule and waits for the far end where it must.
 *
 * A session, in frames of line.h. The end with the higher number sends its estimator; the other works out
 * a size from it and sends its filter; then each takes messages until its session is over, and says so.
 * After that it drops what comes, until the far end has said so too. Now both know both answers, and the
 * line is empty: if both finished they part, else they try again. Any other fault ends the peer.
 *
 * A swap needs nothing of us: the step has our own filter sent, at twice the size. But sizes end at 4,096,
 * a power of two, where differences on both sides read badly (docs/USING.md). An end whose swap has come
 * there does not go on to the 17th: it is over, and the next try has another odd size and salt. */
#define _POSIX_C_SOURCE 200809L

#include <limits.h>
#include <signal.h>
#include <stdio.h>
#include <sys/wait.h>

#include "estimate.h"
#include "line.h"
#include "store.h"

enum { PEERS = 11, SESSIONS = 18, ROUNDS = 5, MOST_TRIES = 6, LEAST_TEXT = 20, MOST_TEXT = 400, SECONDS = 60 };

static const struct {
    int round, one, other; /* one sends the first filter */
} schedule[SESSIONS] = {
    {1, 0, 8}, {1, 1, 9}, {1, 2, 10},
    {2, 0, 1}, {2, 2, 3}, {2, 4, 5}, {2, 6, 7},
    {3, 0, 2}, {3, 1, 3}, {3, 4, 6}, {3, 5, 7},
    {4, 0, 4}, {4, 1, 5}, {4, 2, 6}, {4, 3, 7},
    {5, 0, 8}, {5, 1, 9}, {5, 2, 10},
};

/* ---- The elements: the same in every process, by the seed ---- */

static uint64_t seed = 1, elements = 3000;
enum { FOR_EMPTY, FOR_FEW, FOR_HOLDER, FOR_LENGTH, FOR_TEXT, FOR_SALT };

/* The random number for a purpose and a number (the finish of splitmix64, twice). */
static uint64_t random_for(unsigned purpose, uint64_t number)
{
    uint64_t x = seed;
    for (int i = 0; i < 2; i++) {
        x += ((i ? number : purpose) + 1) * 0x9e3779b97f4a7c15;
        x = (x ^ x >> 30) * 0xbf58476d1ce4e5b9;
        x = (x ^ x >> 27) * 0x94d049bb133111eb;
        x ^= x >> 31;
    }
    return x;
}

/* Who holds an element at first: bit i is peer i. One peer holds none. */
static unsigned holders(unsigned number)
{
    unsigned empty = (unsigned)(random_for(FOR_EMPTY, 0) % PEERS), mask = 0;
    if (number < elements / 5 * 3)
        return ~(1u << empty);
    for (unsigned i = 0; i <= random_for(FOR_FEW, number) % 3; i++)
        mask |= 1u << (empty + 1 + random_for(FOR_HOLDER, number * 3 + i) % (PEERS - 1)) % PEERS;
    return mask;
}

/* Makes the elements that some of these peers hold at first, and puts them into a store. */
static void make_elements(struct store *s, unsigned peers)
{
    char text[MOST_TEXT];
    for (unsigned number = 0; number < elements; number++) {
        if (!(holders(number) & peers))
            continue;
        size_t length = LEAST_TEXT + (size_t)(random_for(FOR_LENGTH, number) % (MOST_TEXT - LEAST_TEXT + 1));
        int at = snprintf(text, sizeof text, "correction %u: ", number);
        for (size_t i = (size_t)at; i < length; i++)
            text[i] = "abcdefghijklmnopqrstuvwxyz eatno"[random_for(FOR_TEXT, number * (uint64_t)MOST_TEXT + i) % 32];
        store_gain(s, (const uint8_t *)text, length);
    }
    store_settle(s);
}

/* ---- A peer ---- */

/* What a peer tells the parent after each session, and once more at its end, as session SESSIONS. */
struct report {
    int peer, session, tries;
    uint32_t size, salt, swaps, steps;
    tandawire_estimation estimate;
    size_t before, now, contents;                /* elements held before and after; bytes of those before */
    size_t sent_estimators, sent_elements, sent; /* bytes of frames: of these two, and of all */
    uint8_t hash[SHA512_BYTES];                  /* of the whole table, at the end */
};
_Static_assert(sizeof(struct report) <= _POSIX_PIPE_BUF, "all peers write to one pipe, and pieces would mix");

static struct peer {
    int number, far; /* our number, and that of the peer that we meet */
    struct store store;
    tandawire_session session;
    struct line line;
    struct report report;
} self;

/* Ends this peer if there is a fault. The far end sees the line close, the parent how we ended. */
static void stop_if(const char *fault)
{
    if (fault) {
        fprintf(stderr, "eleven: peer %d, with peer %d: %s\n", self.number, self.far, fault);
        exit(1);
    }
}

/* Sends what a start or a step says is to be sent: messages as they are, then each element due. */
static void send_answer(tandawire_stepped a)
{
    stop_if(line_send_messages(&self.line, self.session.out, a.sent));
    for (size_t i = 0; i < a.due; i++) {
        const struct element *e = store_find(&self.store, tandawire_session_due(&self.session, i));
        stop_if(line_send_element(&self.line, e->content, e->length));
        self.report.sent_elements += LINE_HEAD + TANDAWIRE_MESSAGE_HEAD + e->length;
    }
}

/* The end that waits for the filter: sends its estimator. */
static tandawire_stepped start_as_receiver(void)
{
    uint8_t bytes[ESTIMATE_MOST];
    size_t length = estimate_write(self.store.table, store_table_length(&self.store), bytes);
    stop_if(line_send(&self.line, LINE_ESTIMATOR, bytes, length));
    self.report.sent_estimators += LINE_HEAD + length;
    return tandawire_session_start_receiver(&self.session, self.store.table, store_table_length(&self.store));
}

/* The end that sends its filter: takes the far end's estimator and chooses a size by it. Three times the
 * estimate, since both may lack something; twice in the last round, where one holds all. One more a try.
 * What it does where the difference is unknown stands in estimate.h. */
static tandawire_stepped start_as_sender(int session)
{
    struct report *r = &self.report;
    uint32_t times = (schedule[session].round < ROUNDS ? 3 : 2) + (uint32_t)r->tries - 1;
    struct frame f;
    stop_if(line_take(&self.line, &f));
    stop_if(f.kind != LINE_ESTIMATOR ? "a frame out of turn" :
            estimate_difference(self.store.table, store_table_length(&self.store), f.body, f.length, times, &r->estimate, &r->size));
    r->salt = (uint32_t)random_for(FOR_SALT, (uint64_t)(session * MOST_TRIES + r->tries)) & TANDAWIRE_MOST_SALT;
    return tandawire_session_start_sender(&self.session, self.store.table, store_table_length(&self.store), r->size, r->salt);
}

/* Takes one message. Answers whether to go on: not if the session is over, nor if a swap came to 4,096. */
static int serve(const uint8_t *message, size_t length)
{
    uint8_t hash[SHA512_BYTES] = {0};
    uint32_t swaps = self.session.numbers.swaps;
    tandawire_part content = tandawire_element_content(message, length);
    if (content.bytes)
        sha512(content.bytes, content.length, hash);
    tandawire_stepped a = tandawire_session_step(&self.session, message, length, hash);
    if (content.bytes && a.refusal == TANDAWIRE_REFUSED_NONE)
        store_gain(&self.store, content.bytes, content.length);
    if (a.refusal != TANDAWIRE_REFUSED_NONE && a.refusal != TANDAWIRE_REFUSED_FALSE && a.refusal != TANDAWIRE_REFUSED_SWAPS)
        stop_if(tandawire_refusal_text(a.refusal));
    self.report.steps++;
    self.report.swaps += a.next.swaps - swaps;
    if (a.next.swaps > swaps && a.next.size == TANDAWIRE_MOST_SIZE)
        return 0;
    send_answer(a);
    return !tandawire_session_is_over(&self.session);
}

/* One try of a session over the line. Answers whether both ends finished. */
static int meet(int session)
{
    struct frame f;
    uint8_t finished = 0;
    int going = 1, far = -1; /* until our OVER went; what the far end's said, once it came */
    tandawire_stepped a = schedule[session].one == self.number ? start_as_sender(session) : start_as_receiver();
    stop_if(a.refusal ? tandawire_refusal_text(a.refusal) : NULL);
    send_answer(a);
    while (going || far < 0) {
        stop_if(line_take(&self.line, &f));
        if (f.kind == LINE_OVER && f.length == 1)
            far = f.body[0];
        else if (f.kind != LINE_MESSAGE)
            stop_if("a frame out of turn");
        if (going && (far >= 0 || !serve(f.body, f.length))) {
            going = 0;
            finished = tandawire_session_is_finished(&self.session) ? 1 : 0;
            stop_if(line_send(&self.line, LINE_OVER, &finished, 1));
        }
    }
    stop_if(line_flush(&self.line)); /* the far end reads until our OVER has come */
    store_settle(&self.store);       /* the session is over: now the table may change */
    return finished && far == 1;
}

static void tell(int reports, int session)
{
    self.report.peer = self.number;
    self.report.session = session;
    self.report.now = self.store.number;
    self.report.sent = self.line.sent;
    stop_if(write(reports, &self.report, sizeof self.report) == (ssize_t)sizeof self.report ? NULL : "no parent");
}

/* A peer's life: its elements, its sessions in the order of the schedule, and a last report. */
static void live(int number, const int *lines, int reports)
{
    self.number = self.far = number;
    make_elements(&self.store, 1u << number);
    for (int s = 0; s < SESSIONS; s++) {
        int finished = 0;
        if (schedule[s].one != number && schedule[s].other != number)
            continue;
        self.far = schedule[s].one + schedule[s].other - number;
        stop_if(line_use(&self.line, lines[self.far]));
        alarm(SECONDS); /* ends us if the far end sends and sends */
        memset(&self.report, 0, sizeof self.report);
        self.report.before = self.store.number;
        for (size_t i = 0; i < self.store.number; i++)
            self.report.contents += self.store.elements[i].length;
        while (!finished && self.report.tries++ < MOST_TRIES)
            finished = meet(s);
        stop_if(finished ? NULL : "no try succeeded");
        tell(reports, s);
    }
    sha512(self.store.table, store_table_length(&self.store), self.report.hash);
    tell(reports, SESSIONS);
    store_free(&self.store);
    line_free(&self.line);
}

/* ---- The parent ---- */

static pid_t children[PEERS];                        /* 0 where there is none */
static struct report told[SESSIONS][2], last[PEERS]; /* by the sender of the first filter and the other; at the end */

/* Joins those who ever meet and forks all. Each closes what is not its own: a line that another process
 * still holds would not close when a peer ends. Answers whether all were started. */
static int start(int reports[2])
{
    int lines[PEERS * PEERS], fine = 1; /* at PEERS * a + b: a's end of the line to b */
    memset(lines, -1, sizeof lines);
    for (int s = 0; s < SESSIONS && fine; s++)
        fine = line_join(&lines[PEERS * schedule[s].one + schedule[s].other], &lines[PEERS * schedule[s].other + schedule[s].one]);
    for (int i = 0; i < PEERS && fine; i++) {
        pid_t pid = fork();
        if (pid == 0) {
            close(reports[0]);
            line_close(lines, PEERS * PEERS, PEERS * i, PEERS);
            live(i, lines + PEERS * i, reports[1]);
            exit(0);
        }
        children[i] = pid > 0 ? pid : 0;
        fine = pid > 0;
    }
    line_close(lines, PEERS * PEERS, 0, 0);
    close(reports[1]);
    return fine;
}

/* One line on the error stream when both ends have told of a session: on a terminal rewritten in place. */
static void show_progress(const struct report *r)
{
    static int ended;
    static size_t gained, sent;
    int terminal = isatty(STDERR_FILENO);
    gained += r->now - r->before;
    sent += r->sent;
    if (!told[r->session][0].tries || !told[r->session][1].tries)
        return;
    ended++;
    fprintf(stderr, "%s%2d of %d sessions, %5zu elements gained, %8zu bytes sent%s", terminal ? "\r" : "", ended, SESSIONS, gained,
            sent, terminal && ended < SESSIONS ? "" : "\n");
}

/* Takes reports until no peer has the pipe any more, or all are silent. Answers whether all sent their last. */
static int collect(int reports)
{
    struct pollfd ready = {reports, POLLIN, 0};
    struct report r;
    int ended = 0;
    while (poll(&ready, 1, SECONDS * 1000) > 0 && read(reports, &r, sizeof r) == (ssize_t)sizeof r)
        if (r.session == SESSIONS) {
            last[r.peer] = r;
            ended++;
        } else {
            told[r.session][schedule[r.session].one != r.peer] = r;
            show_progress(&r);
        }
    return ended == PEERS;
}

/* Waits until all peers have ended, and kills them first if not all is well. Answers whether all ended
 * well. A peer that ends itself says why; this says who was ended by a signal. */
static int end_all(int fine)
{
    int well = fine;
    for (int i = 0; i < PEERS && children[i]; i++) {
        int status = 0;
        if (!fine)
            kill(children[i], SIGKILL);
        waitpid(children[i], &status, 0);
        well = well && status == 0;
        if (WIFSIGNALED(status))
            fprintf(stderr, "eleven: peer %d was ended by signal %d\n", i, WTERMSIG(status));
    }
    return well;
}

static void print_peers(void)
{
    printf("peer  before  gained   now  sessions  swaps  bytes sent: estimators  messages  elements\n");
    for (int i = 0; i < PEERS; i++) {
        size_t gained = 0, estimators = 0, contents = 0, sent = 0;
        unsigned sessions = 0, swaps = 0;
        for (int e = 0; e < 2 * SESSIONS; e++) {
            const struct report *r = &told[e / 2][e % 2];
            if (r->peer != i)
                continue;
            sessions++;
            swaps += r->swaps;
            gained += r->now - r->before;
            estimators += r->sent_estimators;
            contents += r->sent_elements;
            sent += r->sent;
        }
        printf("%4d %7zu %7zu %5zu %9u %6u %23zu %9zu %9zu\n", i, last[i].now - gained, gained, last[i].now, sessions, swaps,
               estimators, sent - estimators - contents, contents);
    }
}

/* Prints the sessions, and what they cost beside two plain ways: each end sends the list of its hashes and
 * then what the other lacks, or all its elements. The true difference is what both ends gained. */
static void print_sessions(void)
{
    size_t moved = 0, sent = 0, lists = 0, contents = 0;
    printf("\nround  peers  difference  estimate  size  salt  tries  swaps  steps    bytes\n");
    for (int s = 0; s < SESSIONS; s++) {
        const struct report *a = &told[s][0], *b = &told[s][1];
        moved += a->sent_elements + b->sent_elements;
        sent += a->sent + b->sent;
        lists += (a->before + b->before) * TANDAWIRE_HASH_BYTES;
        contents += a->contents + b->contents;
        char estimate[24] = "unknown";
        if (a->estimate.known)
            snprintf(estimate, sizeof estimate, "%llu", (unsigned long long)a->estimate.estimate);
        printf("%5d  %d-%-3d %11zu %9s %5u %5u %6d %6u %6u %8zu\n", schedule[s].round, a->peer, b->peer,
               a->now - a->before + b->now - b->before, estimate, a->size, a->salt, a->tries,
               a->swaps + b->swaps, a->steps + b->steps, a->sent + b->sent);
    }
    printf("\nSent: %zu bytes to find the differences, and %zu for the elements that were lacking.\n"
           "With whole lists of hashes in these sessions: %zu bytes to find the differences.\n"
           "With whole tables of elements in these sessions: %zu bytes in all.\n",
           sent - moved, moved, lists, contents);
}

/* Holds the last reports to the union, which the parent makes itself. */
static int judge(void)
{
    static struct store all;
    uint8_t hash[SHA512_BYTES];
    int same = 0;
    make_elements(&all, ~0u);
    sha512(all.table, store_table_length(&all), hash);
    for (int i = 0; i < PEERS; i++)
        same += last[i].now == all.number && memcmp(last[i].hash, hash, sizeof hash) == 0;
    printf("%s hold the same %zu elements.\n", same == PEERS ? "All eleven" : "NOT all eleven", all.number);
    store_free(&all);
    return same == PEERS;
}

int main(int argc, char **argv)
{
    char *rest = "";
    int reports[2];
    if (argc > 1)
        seed = strtoull(argv[1], &rest, 10);
    if (argc > 2 && !*rest)
        elements = strtoull(argv[2], &rest, 10);
    if (argc > 3 || *rest || elements < PEERS || elements > TANDAWIRE_MOST_ELEMENTS) {
        fprintf(stderr, "usage: eleven [SEED [ELEMENTS]], %d to %d elements\n", PEERS, TANDAWIRE_MOST_ELEMENTS);
        return 2;
    }
    if (pipe(reports) < 0 || !end_all(start(reports) && collect(reports[0]))) {
        fprintf(stderr, "eleven: not every peer came to its end\n");
        return 1;
    }
    printf("Seed %llu: %u elements in all, %d sessions in %d rounds.\n\n", (unsigned long long)seed, (unsigned)elements, SESSIONS, ROUNDS);
    print_peers();
    print_sessions();
    return judge() ? 0 : 1;
}
