/* Steps of a session and whole sessions, by the library alone. How it is used stands in jobs.h, and
 *
 *   sessions bytes   what whole sessions send, beside whole lists
 *
 * A step is measured on a session of two honest ends that was stopped before it. A whole session is
 * timed with its lines in memory; of its instructions those of the library are counted.
 */
#define _POSIX_C_SOURCE 199309L
#include "jobs.h"

#include "ends.h"

/* ---- The check ---- */

/* Whether both ends hold the same, and so many. Each holds its own table, so that is the union if it
 * has as many elements as the union. */
static int both_hold(size_t number)
{
    static uint8_t held[2][TANDAWIRE_MOST_ELEMENTS * HASH];
    for (int i = 0; i < 2; i++)
        if (tandawire_session_union(&ends[i], held[i], sizeof held[i]) != number * HASH)
            return 0;
    return memcmp(held[0], held[1], number * HASH) == 0;
}

static int check(void)
{
    static const uint32_t pairs[][4] = {{37, 0, 0, 0}, {37, 50, 3, 4}, {61, 200, 300, 20}, {2053, 3096, 500, 500}, {4093, 0, 1500, 0}, {37, 900, 0, 1100}};
    for (size_t k = 0; k < sizeof pairs / sizeof pairs[0]; k++) {
        const uint32_t *p = pairs[k];
        make(&tables, p[1], p[2], p[3]);
        if (!run(p[0])) {
            fprintf(stderr, "session %zu did not finish: %s and %s\n", k, tandawire_state_text(ends[0].numbers.state),
                    tandawire_state_text(ends[1].numbers.state));
            return 0;
        }
        if (!both_hold(p[1] + p[2] + p[3])) {
            fprintf(stderr, "session %zu does not end with the union\n", k);
            return 0;
        }
    }
    return 1;
}

/* ---- The jobs ---- */

#define STEP(name, what, size, common, ours, theirs, limit) {name, what, "measured_step*", "-", size, common, ours, theirs, limit, 0}
#define SESSION(name, what, common, ours, theirs, limit, goal) \
    {name, what, "tandawire_step tandawire_start_*", "-", 0, common, ours, theirs, limit, goal}

/* No session holds or wants more than 4,096, and all but one that much: the table, and what is demanded. */
static const struct job jobs[] = {
    STEP("slice", "IBF, first slice of 4093", 4093, 3096, 1000, 0, 0),
    STEP("last_10", "IBF LAST of 37, complete, 10 ours", 37, 4086, 10, 0, 0),
    STEP("last_ours", "IBF LAST of 4093, complete, 1000 ours", 4093, 3096, 1000, 0, 0),
    STEP("last_theirs", "IBF LAST of 4093, complete, 1000 theirs", 4093, 3096, 0, 1000, 0),
    STEP("last_swap", "IBF LAST of 2047, stuck, swap to 4094", 2047, 2048, 2048, 0, 0),
    STEP("inquiry", "INQUIRY of 1000", 4093, 3096, 0, 1000, 0),
    STEP("offer_1023", "OFFER of 1023 new hashes, Passive", 4093, 3073, 1023, 0, 40000000),
    STEP("offer_descending", "the same in descending order, the worst", 4093, 3073, 1023, 0, 40000000),
    STEP("offer_1000", "OFFER of 1000 inquired, Active", 4093, 3096, 0, 1000, 0),
    STEP("demand", "DEMAND of 1000", 4093, 3096, 0, 1000, 0),
    STEP("element", "ELEMENT, Passive, 4094 held and 2 wanted", 4093, 4093, 2, 1, 500000),
    STEP("last_element", "last ELEMENT of 2048, DONE goes", 4093, 2048, 0, 2048, 500000),
    STEP("done", "DONE, Passive, finishes", 4093, 3096, 0, 1000, 0),
    STEP("malformed", "malformed: an IBF LAST a byte short", 4093, 3096, 1000, 0, 150000),
    STEP("no_state", "in 4, which is no state", 4093, 3096, 1000, 0, 50000),
    SESSION("session_5_5", "session, 5 + 5", 4086, 5, 5, 0, 0),
    SESSION("session_50_50", "session, 50 + 50", 3996, 50, 50, 0, 0),
    SESSION("session_500_500", "session, 500 + 500", 3096, 500, 500, 400000000, 0),
    SESSION("session_1000_0", "session, receiver alone has 1000", 3096, 1000, 0, 400000000, 0),
    SESSION("session_0_1000", "session, sender alone has 1000", 3096, 0, 1000, 400000000, 0),
};

/* Before which message each step stops, and how it answers it: the refusal and the state. */
static const struct {
    struct stop stop;
    uint32_t refusal, state;
} steps[] = {
    {{RECEIVER, TANDAWIRE_IBF, 1}, 0, TANDAWIRE_EXPECTING_IBF_LAST},
    {{RECEIVER, TANDAWIRE_IBF_LAST, 1}, 0, TANDAWIRE_ACTIVE_DECODING},
    {{RECEIVER, TANDAWIRE_IBF_LAST, 1}, 0, TANDAWIRE_ACTIVE_DECODING},
    {{RECEIVER, TANDAWIRE_IBF_LAST, 1}, 0, TANDAWIRE_ACTIVE_DECODING},
    {{RECEIVER, TANDAWIRE_IBF_LAST, 1}, 0, TANDAWIRE_PASSIVE_DECODING},
    {{SENDER, TANDAWIRE_INQUIRY, 1}, 0, TANDAWIRE_PASSIVE_DECODING},
    {{SENDER, TANDAWIRE_OFFER, 1}, 0, TANDAWIRE_PASSIVE_DECODING},
    {{SENDER, TANDAWIRE_OFFER, 1}, 0, TANDAWIRE_PASSIVE_DECODING},
    {{RECEIVER, TANDAWIRE_OFFER, 1}, 0, TANDAWIRE_ACTIVE_DECODING},
    {{SENDER, TANDAWIRE_DEMAND, 1}, 0, TANDAWIRE_PASSIVE_DECODING},
    {{SENDER, TANDAWIRE_ELEMENT, 1}, 0, TANDAWIRE_PASSIVE_DECODING},
    {{RECEIVER, TANDAWIRE_ELEMENT, 2048}, 0, TANDAWIRE_ACTIVE_DECODING},
    {{SENDER, TANDAWIRE_DONE, 1}, 0, TANDAWIRE_FINISHED},
    {{RECEIVER, TANDAWIRE_IBF_LAST, 1}, TANDAWIRE_REFUSED_MALFORMED, TANDAWIRE_ABORTED},
    {{RECEIVER, TANDAWIRE_IBF_LAST, 1}, TANDAWIRE_REFUSED_FORM, 4},
};
enum { JOBS = sizeof jobs / sizeof jobs[0], STEPS = sizeof steps / sizeof steps[0] };

/* The size that a caller who knows the difference would take. */
static uint32_t size_of(const struct job *job)
{
    return tandawire_size_for(tandawire_known(job->ours + job->theirs), job->ours && job->theirs ? 3 : 2);
}

/* A session as it was before the step, and the message. */
static tandawire_session before;
static struct message message;

static int descending(const void *a, const void *b)
{
    return compare_hashes(b, a);
}

/* What honest ends do not send: one message a byte short, and hashes of an OFFER in the order in which
 * each goes in before all others. And what no call leaves: a session in 4. */
static void alter(const char *name)
{
    static uint8_t altered[TANDAWIRE_MOST_MESSAGE];
    if (strcmp(name, "malformed") == 0)
        message.length--;
    if (strcmp(name, "no_state") == 0)
        before.numbers.state = 4;
    if (strcmp(name, "offer_descending") != 0)
        return;
    memcpy(altered, message.bytes, message.length);
    qsort(altered + TANDAWIRE_MESSAGE_HEAD, message.length / HASH, HASH, descending);
    message.bytes = altered;
}

static void prepare(const struct job *job, uint32_t n)
{
    ptrdiff_t at = job - jobs;
    (void)n;
    state = SEED;
    message.kind = TANDAWIRE_MALFORMED;
    make(&tables, job->common, job->ours, job->theirs);
    if (at >= STEPS || !start(job->size) || !run_to(steps[at].stop))
        return;
    before = ends[steps[at].stop.end];
    message = next_to(steps[at].stop.end);
    alter(job->name);
}

/* A function of its own, so that the steps before it are not counted. */
__attribute__((noinline)) tandawire_stepped measured_step(int end)
{
    return step(end, message);
}

static double time_of_step(ptrdiff_t at)
{
    struct timespec a, b;
    int end = steps[at].stop.end;
    if (message.kind != steps[at].stop.kind)
        return -1;
    ends[end] = before;
    clock_gettime(CLOCK_MONOTONIC, &a);
    tandawire_stepped s = measured_step(end);
    clock_gettime(CLOCK_MONOTONIC, &b);
    if (s.refusal != steps[at].refusal || s.next.state != steps[at].state)
        return -1;
    if (s.refusal)
        snprintf(answer, sizeof answer, "refused %lu", (unsigned long)s.refusal);
    else
        snprintf(answer, sizeof answer, "%s %zu", s.due ? "due" : "sent", s.due ? s.due : s.sent);
    return nanoseconds(a, b);
}

static double time_of(const struct job *job, int side, uint32_t n)
{
    struct timespec a, b;
    (void)side, (void)n;
    if (job - jobs < STEPS)
        return time_of_step(job - jobs);
    clock_gettime(CLOCK_MONOTONIC, &a);
    int finished = run(size_of(job));
    clock_gettime(CLOCK_MONOTONIC, &b);
    snprintf(answer, sizeof answer, "finished");
    return finished ? nanoseconds(a, b) : -1;
}

/* ---- What is sent ---- */

enum { PAIRS = 100 };

/* How many of some pairs of tables swap, and how many do not end with the union at both ends. */
static void luck(const struct job *job, unsigned *swapped, unsigned *failed)
{
    *swapped = *failed = 0;
    for (int i = 0; i < PAIRS; i++) {
        make(&tables, job->common, job->ours, job->theirs);
        *failed += !run(size_of(job)) || !both_hold(job->common + job->ours + job->theirs);
        *swapped += ends[0].numbers.swaps + ends[1].numbers.swaps > 0;
    }
}

/* A line a session for bench/all, its fields parted by tabs: the size; steps, swaps, bytes without the
 * elements' contents and with them on the pair that is measured; the sender's whole list of hashes, and
 * all its elements as messages; pairs, and those that swap and that fail. */
static int print_bytes(void)
{
    for (int i = STEPS; i < JOBS; i++) {
        const struct job *job = &jobs[i];
        size_t number = job->common + job->theirs;
        unsigned swapped, failed;
        prepare(job, 1);
        if (!run(size_of(job)) || !both_hold(job->common + job->ours + job->theirs))
            return 1;
        printf("%s\t%lu\t%zu\t%lu\t%zu\t%zu\t%zu\t%zu", job->what, (unsigned long)size_of(job), taken.steps,
               (unsigned long)(ends[0].numbers.swaps + ends[1].numbers.swaps), wire() - taken.elements * CONTENT, wire(), number * HASH,
               number * (TANDAWIRE_MESSAGE_HEAD + CONTENT));
        luck(job, &swapped, &failed);
        printf("\t%d\t%u\t%u\n", PAIRS, swapped, failed);
        fflush(stdout);
    }
    return 0;
}

int main(int argc, char **argv)
{
    static const struct program program = {
        "sessions", jobs, JOBS, 1, check, prepare, time_of,
    };
    if (argc == 2 && strcmp(argv[1], "bytes") == 0)
        return print_bytes();
    return run_program(&program, argc, argv);
}
