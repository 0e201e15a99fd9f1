/* Eight threads take one lock two hundred times each, and count by it. The lock is a test-and-set word, a ticket lock
 * (-DTICKET), or the queue of Mellor-Crummey and Scott (-DMCS), in which each waiter spins on a line of its own. With
 * -DOUTSIDE=N a thread counts to N between two turns. */
#include "print.h"

#ifndef OUTSIDE
#define OUTSIDE 0
#endif

enum { THREADS = 8, ROUNDS = 200 };

static unsigned long total;

#if defined(TICKET)

static _Atomic uint32_t next_ticket __attribute__((aligned(LINE_BYTES)));
static _Atomic uint32_t now_served __attribute__((aligned(LINE_BYTES)));

static void lock(unsigned thread) {
    (void)thread;
    uint32_t ticket = atomic_fetch_add(&next_ticket, 1);
    while (atomic_load(&now_served) != ticket)
        ;
}

static void unlock(unsigned thread) {
    (void)thread;
    atomic_fetch_add(&now_served, 1);
}

#elif defined(MCS)

struct place {
    _Atomic(struct place *) behind;
    _Atomic uint32_t is_waiting;
} __attribute__((aligned(LINE_BYTES)));

static struct place places[THREADS];
static _Atomic(struct place *) last __attribute__((aligned(LINE_BYTES)));

static void lock(unsigned thread) {
    struct place *own = &places[thread];
    atomic_store(&own->behind, NULL);
    atomic_store(&own->is_waiting, 1);
    struct place *before = atomic_exchange(&last, own);
    if (before == NULL)
        return;
    atomic_store(&before->behind, own);
    while (atomic_load(&own->is_waiting))
        ;
}

static void unlock(unsigned thread) {
    struct place *own = &places[thread];
    if (atomic_load(&own->behind) == NULL) {
        struct place *seen = own;
        if (atomic_compare_exchange_strong(&last, &seen, NULL))
            return;
        while (atomic_load(&own->behind) == NULL)
            ;
    }
    atomic_store(&atomic_load(&own->behind)->is_waiting, 0);
}

#else

static _Atomic uint32_t word __attribute__((aligned(LINE_BYTES)));

static void lock(unsigned thread) {
    (void)thread;
    while (atomic_exchange(&word, 1))
        ;
}

static void unlock(unsigned thread) {
    (void)thread;
    atomic_store(&word, 0);
}

#endif

static long count(void *argument) {
    unsigned thread = (unsigned)(uintptr_t)argument;
    for (unsigned i = 0; i < ROUNDS; i++) {
        lock(thread);
        total++;
        unlock(thread);
        for (volatile int work = 0; work < OUTSIDE; work++)
            ;
    }
    return 0;
}

int main(void) {
    struct thread threads[THREADS - 1];
    for (unsigned i = 0; i < THREADS - 1; i++)
        thread_start(&threads[i], count, (void *)(uintptr_t)(i + 1));
    count(NULL);
    threads_join(threads, THREADS - 1);
    print_count("total", total);
    return 0;
}
