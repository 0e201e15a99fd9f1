/* Litmus tests of sequential consistency: in each round threads write and read the shared x and y, which lie on
 * lines of their own, and what they read together is compared with what no interleaving of their accesses gives.
 * Printed is how many rounds ended so, which has to be 0. In round n the number n is written, so a read of n is
 * one after the write, and any other is one before it.
 *
 * Built with -DOUTCOMES, it also prints how often each outcome came, which depends on the seed: for each read, in
 * the order of the threads, 1 if it was after the write. */

#include "print.h"
#include "tilesim.h"

enum { ROUNDS = 500, THREADS_MOST = 4, OUTCOMES_MOST = 16 };

#ifdef OUTCOMES
enum { SHOWS_OUTCOMES = 1 };
#else
enum { SHOWS_OUTCOMES = 0 };
#endif

/* A variable on a line of its own. Accesses are volatile, so the compiler keeps each of them, and their order. */
struct variable {
    _Alignas(LINE_BYTES) volatile long value;
};

/* What a thread read in a round; 0 where it doesn't read. */
struct reads {
    _Alignas(LINE_BYTES) long first;
    long second;
};

struct test {
    const char *name;
    unsigned threads;
    /* A thread's part of a round. */
    void (*part)(unsigned thread, long round, struct reads *reads);
    /* Whether no interleaving gives these reads of the threads in the round. */
    bool (*is_forbidden)(const struct reads *reads, long round);
};

static struct variable x, y;

/* Store buffering: each writes one and then reads the other; the one that writes last reads what the other wrote. */
static void store_buffering(unsigned thread, long round, struct reads *reads) {
    if (thread == 0) {
        x.value = round;
        reads->first = y.value;
    } else {
        y.value = round;
        reads->first = x.value;
    }
}

static bool both_read_old(const struct reads *reads, long round) {
    return reads[0].first != round && reads[1].first != round;
}

/* Message passing: x is the message, y says that it is there. */
static void message_passing(unsigned thread, long round, struct reads *reads) {
    if (thread == 0) {
        x.value = round;
        y.value = round;
    } else {
        reads->first = y.value;
        reads->second = x.value;
    }
}

static bool message_is_missing(const struct reads *reads, long round) {
    return reads[1].first == round && reads[1].second != round;
}

/* Load buffering: each reads one and then writes the other; the first read finds nothing written. */
static void load_buffering(unsigned thread, long round, struct reads *reads) {
    if (thread == 0) {
        reads->first = x.value;
        y.value = round;
    } else {
        reads->first = y.value;
        x.value = round;
    }
}

static bool both_read_new(const struct reads *reads, long round) {
    return reads[0].first == round && reads[1].first == round;
}

/* Independent reads of independent writes: two writers, and two readers that may not see them in two orders. */
static void independent_reads(unsigned thread, long round, struct reads *reads) {
    switch (thread) {
    case 0:
        x.value = round;
        break;
    case 1:
        y.value = round;
        break;
    case 2:
        reads->first = x.value;
        reads->second = y.value;
        break;
    default:
        reads->first = y.value;
        reads->second = x.value;
    }
}

static bool readers_disagree(const struct reads *reads, long round) {
    return reads[2].first == round && reads[2].second != round && reads[3].first == round && reads[3].second != round;
}

static const struct test tests[] = {
    {"store buffering", 2, store_buffering, both_read_old},
    {"message passing", 2, message_passing, message_is_missing},
    {"load buffering", 2, load_buffering, both_read_new},
    {"independent reads", 4, independent_reads, readers_disagree},
};

/* The test that runs, and what its threads share. */
static const struct test *test;
static struct barrier barrier;
static struct reads reads[THREADS_MOST];
static unsigned long forbidden, outcomes[OUTCOMES_MOST];

/* The next of a row of numbers that look random (xorshift), none of which is 0. */
static unsigned next_random(unsigned *state) {
    *state ^= *state << 13;
    *state ^= *state >> 17;
    *state ^= *state << 5;
    return *state;
}

/* Brings copies of x and y into the thread's cache, in three of four rounds. */
static void warm(unsigned random) {
    if (random % 4 == 0)
        return;
    (void)x.value;
    (void)y.value;
}

/* Lets the threads begin at another distance in each round. The last one to come to the barrier goes on at once,
 * the others are woken first, so it waits a little longer. */
static void delay(unsigned random, bool is_last) {
    for (unsigned turns = random % 8 + (is_last ? 4 : 0); turns > 0; turns--)
        __asm__ volatile("");
}

/* A bit for each read of the round, in the order of the threads; of four threads the last two read. */
static unsigned outcome(long round) {
    unsigned bits = 0;
    for (unsigned thread = 0; thread < test->threads; thread++)
        bits = bits << 2 | (unsigned)(reads[thread].first == round) << 1 | (unsigned)(reads[thread].second == round);
    return bits % OUTCOMES_MOST;
}

/* A thread's part of all rounds. One thread, in turn, looks at what was read before it comes to the next barrier. */
static long run(void *argument) {
    unsigned thread = (unsigned)(uintptr_t)argument;
    unsigned state = thread + 1;
    for (long round = 1; round <= ROUNDS; round++) {
        warm(next_random(&state));
        bool is_last = barrier_wait(&barrier);
        delay(next_random(&state), is_last);
        test->part(thread, round, &reads[thread]);
        barrier_wait(&barrier);
        if (round % test->threads == thread) {
            forbidden += test->is_forbidden(reads, round);
            outcomes[outcome(round)]++;
        }
    }
    return 0;
}

static void print_outcomes(void) {
    for (unsigned bits = 0; bits < OUTCOMES_MOST; bits++) {
        static struct line line;
        if (outcomes[bits] == 0)
            continue;
        add_text(&line, "  read ");
        for (int place = 3; place >= 0; place--)
            add_character(&line, (char)('0' + (bits >> place & 1)));
        add_text(&line, " rounds ");
        add_number(&line, outcomes[bits]);
        print_line(&line);
        outcomes[bits] = 0;
    }
}

/* Runs all rounds of the test; answers whether there were tiles enough. */
static bool run_test(void) {
    struct thread threads[THREADS_MOST - 1];
    barrier = (struct barrier){.threads = test->threads};
    forbidden = 0;
    x.value = y.value = 0;
    for (unsigned thread = 0; thread < THREADS_MOST; thread++)
        reads[thread].first = reads[thread].second = 0;
    for (unsigned thread = 1; thread < test->threads; thread++)
        if (thread_start(&threads[thread - 1], run, (void *)(uintptr_t)thread) != 0)
            return false;
    run(NULL);
    threads_join(threads, test->threads - 1);
    return true;
}

int main(void) {
    unsigned long total = 0;
    for (test = tests; test < tests + sizeof tests / sizeof *tests; test++) {
        if (!run_test())
            return 2;
        static struct line line;
        add_text(&line, test->name);
        add_text(&line, ": forbidden ");
        add_number(&line, forbidden);
        print_line(&line);
        total += forbidden;
        if (SHOWS_OUTCOMES)
            print_outcomes();
    }
    return total != 0;
}
