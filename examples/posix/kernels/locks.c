/* Locks: all threads together take one lock 512 times, and count in a variable that it guards. LOCK names the lock:
 * TEST_AND_SET, TICKET (Mellor-Crummey and Scott, "Algorithms for scalable synchronization on shared-memory
 * multiprocessors", 1991, as is MCS), MCS, FUTEX (pthread_mutex_t), or NONE, where nothing is locked or counted. */

#include <stdatomic.h>

#include "kernel.h"

#define NONE 0
#define TEST_AND_SET 1
#define TICKET 2
#define MCS 3
#define FUTEX 4

#define ACQUISITIONS 512
#define LINE __attribute__((aligned(LINE_BYTES)))

static volatile unsigned long count LINE;

#if LOCK == NONE
static void lock(unsigned thread) { (void)thread; }
static void unlock(unsigned thread) { (void)thread; }
#elif LOCK == TEST_AND_SET
static _Atomic unsigned taken LINE;

static void lock(unsigned thread) {
    (void)thread;
    while (atomic_exchange(&taken, 1) != 0) {
    }
}
static void unlock(unsigned thread) {
    (void)thread;
    atomic_store(&taken, 0);
}
#elif LOCK == TICKET
static _Atomic unsigned next_ticket LINE;
static _Atomic unsigned now_served LINE;

static void lock(unsigned thread) {
    (void)thread;
    unsigned ticket = atomic_fetch_add(&next_ticket, 1);
    while (atomic_load(&now_served) != ticket) {
    }
}
static void unlock(unsigned thread) {
    (void)thread;
    atomic_store(&now_served, atomic_load(&now_served) + 1);
}
#elif LOCK == MCS
struct waiter {
    struct waiter *_Atomic next;
    _Atomic unsigned waits;
    char rest[LINE_BYTES - 16];
};
static struct waiter waiters[MOST_THREADS] LINE;
static struct waiter *_Atomic last LINE;

static void lock(unsigned thread) {
    struct waiter *own = &waiters[thread];
    atomic_store(&own->next, NULL);
    struct waiter *before = atomic_exchange(&last, own);
    if (before == NULL)
        return;
    atomic_store(&own->waits, 1);
    atomic_store(&before->next, own);
    while (atomic_load(&own->waits)) {
    }
}
static void unlock(unsigned thread) {
    struct waiter *own = &waiters[thread], *expected = own;
    if (atomic_load(&own->next) == NULL) {
        if (atomic_compare_exchange_strong(&last, &expected, NULL))
            return;
        while (atomic_load(&own->next) == NULL) {
        }
    }
    atomic_store(&atomic_load(&own->next)->waits, 0);
}
#else
static pthread_mutex_t mutex LINE = PTHREAD_MUTEX_INITIALIZER;

static void lock(unsigned thread) {
    (void)thread;
    pthread_mutex_lock(&mutex);
}
static void unlock(unsigned thread) {
    (void)thread;
    pthread_mutex_unlock(&mutex);
}
#endif

static void work(unsigned thread) {
    for (unsigned i = share_begin(thread, ACQUISITIONS); i < share_begin(thread + 1, ACQUISITIONS); i++) {
        lock(thread);
        if (LOCK != NONE)
            count = count + 1;
        unlock(thread);
        for (volatile unsigned j = 0; j < 20; j++) {
        }
    }
}

int main(int words, char **word) {
    run_on_threads(words, word, work);
    printf("locks count %lu\n", count);
    return 0;
}
