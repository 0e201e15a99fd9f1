/* A pool of tasks that are stolen: each thread has a deque of tasks and takes its newest; a thread without any takes the
 * oldest of another's (Blumofe and Leiserson, "Scheduling multithreaded computations by work stealing", 1999). The deque
 * is that of Chase and Lev (2005), of a fixed size. The tasks place queens on a board of 9 by 9. */

#include <sched.h>
#include <stdatomic.h>

#include "kernel.h"

#define SIDE 9
#define ALL ((1u << SIDE) - 1)
#define ROOM 256
#define ROWS_AS_TASKS 3 /* queens of the first rows are tasks of their own; the rest of a board is one task */

struct deque {
    _Atomic long oldest, newest; /* the tasks between them */
    _Atomic unsigned long tasks[ROOM];
    unsigned long found;
    char rest[LINE_BYTES];
};

static struct deque deques[MOST_THREADS] __attribute__((aligned(LINE_BYTES)));
static _Atomic long unfinished __attribute__((aligned(LINE_BYTES))) = 1;

/* A board: the columns that are taken, and those that the two diagonals take in the next row. */
static unsigned long task(unsigned row, unsigned columns, unsigned left, unsigned right) {
    return row | (unsigned long)columns << 9 | (unsigned long)left << 18 | (unsigned long)right << 27;
}

static void push(struct deque *deque, unsigned long task) {
    long place = atomic_load(&deque->newest);
    if (place - atomic_load(&deque->oldest) >= ROOM)
        abort();
    atomic_store(&deque->tasks[place % ROOM], task);
    atomic_store(&deque->newest, place + 1);
}

/* The newest task of one's own deque; 0 where there is none. */
static unsigned long pop(struct deque *deque) {
    long place = atomic_load(&deque->newest) - 1;
    atomic_store(&deque->newest, place);
    long oldest = atomic_load(&deque->oldest);
    unsigned long task = oldest <= place ? atomic_load(&deque->tasks[place % ROOM]) : 0;
    if (oldest < place)
        return task;
    if (oldest == place && !atomic_compare_exchange_strong(&deque->oldest, &oldest, oldest + 1))
        task = 0; /* another thread was first */
    atomic_store(&deque->newest, place + 1);
    return task;
}

/* The oldest task of another's deque; 0 where there is none, or another thread was first. */
static unsigned long steal(struct deque *deque) {
    long oldest = atomic_load(&deque->oldest);
    if (oldest >= atomic_load(&deque->newest))
        return 0;
    unsigned long task = atomic_load(&deque->tasks[oldest % ROOM]);
    return atomic_compare_exchange_strong(&deque->oldest, &oldest, oldest + 1) ? task : 0;
}

static unsigned long solutions(unsigned row, unsigned columns, unsigned left, unsigned right) {
    if (row == SIDE)
        return 1;
    unsigned long found = 0;
    for (unsigned free = ALL & ~(columns | left | right); free != 0; free &= free - 1) {
        unsigned queen = free & -free;
        found += solutions(row + 1, columns | queen, (left | queen) << 1 & ALL, (right | queen) >> 1);
    }
    return found;
}

static void run_task(struct deque *deque, unsigned long board) {
    unsigned row = board & ALL, columns = board >> 9 & ALL, left = board >> 18 & ALL, right = board >> 27 & ALL;
    if (row >= ROWS_AS_TASKS) {
        deque->found += solutions(row, columns, left, right);
    } else {
        for (unsigned free = ALL & ~(columns | left | right); free != 0; free &= free - 1) {
            unsigned queen = free & -free;
            atomic_fetch_add(&unfinished, 1);
            push(deque, task(row + 1, columns | queen, (left | queen) << 1 & ALL, (right | queen) >> 1));
        }
    }
    atomic_fetch_sub(&unfinished, 1);
}

static void work(unsigned thread) {
    struct deque *own = &deques[thread];
    unsigned long tries = thread * 1000;
    if (thread == 0)
        push(own, task(0, 0, 0, 0) | 1ul << 40); /* no task is 0 */
    while (atomic_load(&unfinished) > 0) {
        unsigned long found = pop(own);
        if (found == 0)
            found = steal(&deques[drawn(tries++) % thread_count]);
        if (found != 0)
            run_task(own, found);
        else
            sched_yield();
    }
    tell(thread, own->found);
}

int main(int words, char **word) {
    run_on_threads(words, word, work);
    printf("pool %d queens, solutions %lu\n", SIDE, all_told());
    return 0;
}
