/* Every thread adds 1 to one word, a thousand times, by an atomic each: one line that all tiles want at once. */
#include "print.h"

static _Atomic unsigned long total;

static long add(void *unused) {
    (void)unused;
    for (unsigned i = 0; i < 1000; i++)
        atomic_fetch_add(&total, 1);
    return 0;
}

int main(void) {
    struct thread threads[63];
    unsigned count = threads_start(threads, 63, add, NULL);
    add(NULL);
    threads_join(threads, count);
    print_count("total", total);
    return 0;
}
