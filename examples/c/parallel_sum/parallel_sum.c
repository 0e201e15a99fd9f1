/* Sums an array on as many tiles as are idle: first they fill it with the numbers from 1 on, then they sum it.
 * Each thread takes the next chunk that nobody has taken. What is printed doesn't depend on how many tiles there
 * are; how long it takes does. */

#include "print.h"
#include "tilesim.h"

enum { NUMBERS = 8192, CHUNK = 64, WORKERS_MOST = 63 };

static _Alignas(LINE_BYTES) unsigned numbers[NUMBERS];
static _Atomic unsigned next_to_fill, next_to_sum;
static _Atomic unsigned long total;

/* The first number of the next chunk of a pass, or NUMBERS or more when all are taken. */
static unsigned take_chunk(_Atomic unsigned *next) { return atomic_fetch_add(next, CHUNK); }

static long fill(void *unused) {
    (void)unused;
    for (unsigned first; (first = take_chunk(&next_to_fill)) < NUMBERS;)
        for (unsigned i = first; i < first + CHUNK; i++)
            numbers[i] = i + 1;
    return 0;
}

static long sum(void *unused) {
    (void)unused;
    for (unsigned first; (first = take_chunk(&next_to_sum)) < NUMBERS;) {
        unsigned long part = 0;
        for (unsigned i = first; i < first + CHUNK; i++)
            part += numbers[i];
        atomic_fetch_add(&total, part);
    }
    return 0;
}

/* Runs a pass on this tile and on all that are idle, to its end. */
static void run(long (*pass)(void *unused)) {
    struct thread workers[WORKERS_MOST];
    unsigned count = threads_start(workers, WORKERS_MOST, pass, NULL);
    pass(NULL);
    threads_join(workers, count);
}

int main(void) {
    run(fill);
    run(sum);
    print_count("numbers", NUMBERS);
    print_count("sum", total);
    return 0;
}
