/* Ocean: what such programs spend their time on, Gauss and Seidel's iteration in red and black order, on a grid of 64 by
 * 64 inner points. Each thread has a strip of rows. Fixed point, with 16 binary places. */

#include "kernel.h"

#define SIDE 64
#define ROUNDS 5

static int grid[SIDE + 2][SIDE + 2] __attribute__((aligned(LINE_BYTES)));

static void relax(unsigned begin, unsigned end, unsigned colour) {
    for (unsigned row = begin; row < end; row++)
        for (unsigned column = 1 + (row + colour) % 2; column <= SIDE; column += 2) {
            int *at = &grid[row][column];
            *at = (at[-1] + at[1] + at[-SIDE - 2] + at[SIDE + 2]) >> 2;
        }
}

static void work(unsigned thread) {
    unsigned begin = share_begin(thread, SIDE) + 1, end = share_begin(thread + 1, SIDE) + 1;
    for (unsigned row = thread == 0 ? 0 : begin; row < (thread + 1 == thread_count ? SIDE + 2 : end); row++)
        for (unsigned column = 0; column < SIDE + 2; column++)
            grid[row][column] = (int)(drawn(row * 100 + column) % 100) << 16;
    wait_for_all();
    for (unsigned i = 0; i < 2 * ROUNDS; i++) {
        relax(begin, end, i % 2);
        wait_for_all();
    }
    unsigned long sum = 0;
    for (unsigned row = begin; row < end; row++)
        for (unsigned column = 1; column <= SIDE; column++)
            sum += checked(row * 100 + column, (unsigned long)grid[row][column]);
    tell(thread, sum);
}

int main(int words, char **word) {
    run_on_threads(words, word, work);
    printf("ocean %d checksum %lu\n", SIDE, all_told());
    return 0;
}
