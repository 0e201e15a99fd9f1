/* Threads on all idle tiles count up to a number together. The counter is a plain variable that a mutex guards;
 * each thread also counts its own steps. Without the mutex steps would be lost, and the two sums differ. */

#include "print.h"
#include "tilesim.h"

enum { LAST = 1000, WORKERS_MOST = 15 };

static struct mutex mutex;
static unsigned long counter;
static _Atomic unsigned long steps;

/* One more, as long as the counter is below LAST. */
static bool step(void) {
    mutex_lock(&mutex);
    bool is_below = counter < LAST;
    if (is_below)
        counter++;
    mutex_unlock(&mutex);
    return is_below;
}

static long count(void *unused) {
    (void)unused;
    unsigned long mine = 0;
    while (step())
        mine++;
    atomic_fetch_add(&steps, mine);
    return 0;
}

int main(void) {
    struct thread workers[WORKERS_MOST];
    unsigned started = threads_start(workers, WORKERS_MOST, count, NULL);
    count(NULL);
    threads_join(workers, started);
    print_count("counter", counter);
    print_count("steps", steps);
    return 0;
}
