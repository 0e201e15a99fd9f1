/* Four threads count, each in a counter of its own. Packed, the four counters lie in one line of memory, which
 * wanders from tile to tile; built with -DPADDED, each has a line of its own, and nearly all accesses are hits. */

#include "print.h"
#include "tilesim.h"

enum { THREADS = 4, LAST = 1000 };

#ifdef PADDED
#define COUNTER_ALIGNMENT LINE_BYTES
#else
#define COUNTER_ALIGNMENT sizeof(long)
#endif

struct counter {
    _Alignas(COUNTER_ALIGNMENT) volatile unsigned long value;
};

static _Alignas(LINE_BYTES) struct counter counters[THREADS];

static long count(void *argument) {
    struct counter *counter = argument;
    while (counter->value < LAST)
        counter->value++;
    return 0;
}

int main(void) {
    struct thread threads[THREADS - 1];
    for (unsigned i = 0; i < THREADS - 1; i++)
        if (thread_start(&threads[i], count, &counters[i]) != 0)
            return 1;
    count(&counters[THREADS - 1]);
    threads_join(threads, THREADS - 1);
    for (unsigned i = 0; i < THREADS; i++)
        print_count("counter", counters[i].value);
    return 0;
}
