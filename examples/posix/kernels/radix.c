/* Radix sort: 8192 keys of 12 bits, in two passes of 64 digits. Each thread counts its keys by digit; the places are sums
 * of the counts before, found by digit over the threads; then each thread moves its keys (Blelloch and others, "A
 * comparison of sorting algorithms for the Connection Machine CM-2", 1991). */

#include "kernel.h"

#define KEYS 8192
#define DIGITS 64

static unsigned keys[2][KEYS] __attribute__((aligned(LINE_BYTES)));
static unsigned counts[MOST_THREADS][DIGITS] __attribute__((aligned(LINE_BYTES)));
static unsigned totals[DIGITS] __attribute__((aligned(LINE_BYTES)));

static void pass(unsigned thread, const unsigned *from, unsigned *to, unsigned shift) {
    unsigned begin = share_begin(thread, KEYS), end = share_begin(thread + 1, KEYS);
    unsigned places[DIGITS] = {0};
    for (unsigned i = begin; i < end; i++)
        places[from[i] >> shift & (DIGITS - 1)]++;
    for (unsigned digit = 0; digit < DIGITS; digit++)
        counts[thread][digit] = places[digit];
    wait_for_all();
    for (unsigned digit = share_begin(thread, DIGITS); digit < share_begin(thread + 1, DIGITS); digit++) {
        unsigned total = 0;
        for (unsigned other = 0; other < thread_count; other++) {
            unsigned count = counts[other][digit];
            counts[other][digit] = total;
            total += count;
        }
        totals[digit] = total;
    }
    wait_for_all();
    for (unsigned digit = 0, before = 0; digit < DIGITS; before += totals[digit++])
        places[digit] = before + counts[thread][digit];
    for (unsigned i = begin; i < end; i++)
        to[places[from[i] >> shift & (DIGITS - 1)]++] = from[i];
    wait_for_all();
}

static void work(unsigned thread) {
    unsigned begin = share_begin(thread, KEYS), end = share_begin(thread + 1, KEYS);
    for (unsigned i = begin; i < end; i++)
        keys[0][i] = drawn(i) % (DIGITS * DIGITS);
    pass(thread, keys[0], keys[1], 0);
    pass(thread, keys[1], keys[0], 6);
    unsigned long sum = 0;
    for (unsigned i = begin; i < end; i++) {
        sum += checked(i, keys[0][i]);
        if (i > 0 && keys[0][i - 1] > keys[0][i])
            abort();
    }
    tell(thread, sum);
}

int main(int words, char **word) {
    run_on_threads(words, word, work);
    printf("radix %d checksum %lu\n", KEYS, all_told());
    return 0;
}
