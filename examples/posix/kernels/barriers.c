/* Barriers: all threads wait for one another 16 times. BARRIER names the barrier: CENTRAL (a count and a sense),
 * DISSEMINATION, TREE (up by fours, down by a sense; all three in Mellor-Crummey and Scott, "Algorithms for scalable
 * synchronization on shared-memory multiprocessors", 1991), FUTEX (pthread_barrier_t), or NONE. */

#include <stdatomic.h>

#include "kernel.h"

#define NONE 0
#define CENTRAL 1
#define DISSEMINATION 2
#define TREE 3
#define FUTEX 4

#define ROUNDS 16
#define LINE __attribute__((aligned(LINE_BYTES)))

/* A word in a line of memory of its own. */
struct word {
    _Atomic unsigned value;
    char rest[LINE_BYTES - sizeof(unsigned)];
};

static inline void wait_for(struct word *word, unsigned value) {
    while (atomic_load(&word->value) != value) {
    }
}

#if BARRIER == NONE
static void wait(unsigned thread, unsigned round) { (void)thread, (void)round; }
#elif BARRIER == CENTRAL
static struct word arrived LINE, passed LINE;

static void wait(unsigned thread, unsigned round) {
    (void)thread;
    if (atomic_fetch_add(&arrived.value, 1) + 1 == thread_count) {
        atomic_store(&arrived.value, 0);
        atomic_store(&passed.value, round);
    } else {
        wait_for(&passed, round);
    }
}
#elif BARRIER == DISSEMINATION
static struct word told_by[6][MOST_THREADS] LINE; /* the round that was last told, at each distance */

static void wait(unsigned thread, unsigned round) {
    for (unsigned level = 0; 1u << level < thread_count; level++) {
        unsigned partner = (thread + (1u << level)) % thread_count;
        atomic_store(&told_by[level][partner].value, round);
        while (atomic_load(&told_by[level][thread].value) < round) { /* a partner may be a round ahead */
        }
    }
}
#elif BARRIER == TREE
static struct word arrived[MOST_THREADS] LINE, passed LINE;

static void wait(unsigned thread, unsigned round) {
    for (unsigned child = 4 * thread + 1; child <= 4 * thread + 4 && child < thread_count; child++)
        wait_for(&arrived[child], round);
    if (thread == 0) {
        atomic_store(&passed.value, round);
    } else {
        atomic_store(&arrived[thread].value, round);
        wait_for(&passed, round);
    }
}
#else
static void wait(unsigned thread, unsigned round) {
    (void)thread, (void)round;
    wait_for_all();
}
#endif

static struct word phases[MOST_THREADS] LINE;

static void work(unsigned thread) {
    for (unsigned round = 1; round <= ROUNDS; round++) {
        atomic_store(&phases[thread].value, round);
        wait(thread, round);
    }
    tell(thread, phases[thread].value);
}

int main(int words, char **word) {
    run_on_threads(words, word, work);
    printf("barriers rounds %lu\n", all_told() / thread_count);
    return 0;
}
