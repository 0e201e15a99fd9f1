/* LU: a dense matrix of 48 rows is divided into a lower and an upper triangle, by blocks of 8 rows and columns that the
 * threads own in turn, each block in one piece of memory, as the kernel of SPLASH-2 makes it. There are no pivots: the
 * diagonal dominates. Fixed point. */

#include "fixed.h"
#include "kernel.h"

#define BLOCK 8
#define BLOCKS 6
#define SIDE (BLOCK * BLOCKS)

typedef fixed block[BLOCK][BLOCK];

static block blocks[BLOCKS][BLOCKS] __attribute__((aligned(LINE_BYTES)));

static int owns(unsigned thread, unsigned row, unsigned column) { return (row * BLOCKS + column) % thread_count == thread; }

static void factor(block a) {
    for (unsigned k = 0; k < BLOCK; k++)
        for (unsigned i = k + 1; i < BLOCK; i++) {
            a[i][k] = over(a[i][k], a[k][k]);
            for (unsigned j = k + 1; j < BLOCK; j++)
                a[i][j] -= times(a[i][k], a[k][j]);
        }
}

/* A block right of the diagonal one: the lower triangle is divided out. */
static void solve_lower(block diagonal, block a) {
    for (unsigned k = 0; k < BLOCK; k++)
        for (unsigned i = k + 1; i < BLOCK; i++)
            for (unsigned j = 0; j < BLOCK; j++)
                a[i][j] -= times(diagonal[i][k], a[k][j]);
}

/* A block below the diagonal one: the upper triangle is divided out. */
static void solve_upper(block diagonal, block a) {
    for (unsigned i = 0; i < BLOCK; i++)
        for (unsigned k = 0; k < BLOCK; k++) {
            a[i][k] = over(a[i][k], diagonal[k][k]);
            for (unsigned j = k + 1; j < BLOCK; j++)
                a[i][j] -= times(a[i][k], diagonal[k][j]);
        }
}

static void subtract_product(block left, block right, block a) {
    for (unsigned i = 0; i < BLOCK; i++)
        for (unsigned k = 0; k < BLOCK; k++)
            for (unsigned j = 0; j < BLOCK; j++)
                a[i][j] -= times(left[i][k], right[k][j]);
}

static void fill(unsigned row, unsigned column) {
    for (unsigned i = 0; i < BLOCK; i++)
        for (unsigned j = 0; j < BLOCK; j++) {
            unsigned place = (row * BLOCK + i) * SIDE + column * BLOCK + j;
            unsigned diagonal = row == column && i == j ? 100 * SIDE : 0;
            blocks[row][column][i][j] = (fixed)(drawn(place) % 100 + diagonal) * ONE;
        }
}

static unsigned long check(unsigned row, unsigned column) {
    unsigned long sum = 0;
    for (unsigned i = 0; i < BLOCK; i++)
        for (unsigned j = 0; j < BLOCK; j++)
            sum += checked((row * BLOCK + i) * SIDE + column * BLOCK + j, (unsigned long)blocks[row][column][i][j]);
    return sum;
}

/* One step: the diagonal block, then those beside and below it, then the rest. */
static void step(unsigned thread, unsigned k) {
    if (owns(thread, k, k))
        factor(blocks[k][k]);
    wait_for_all();
    for (unsigned i = k + 1; i < BLOCKS; i++) {
        if (owns(thread, k, i))
            solve_lower(blocks[k][k], blocks[k][i]);
        if (owns(thread, i, k))
            solve_upper(blocks[k][k], blocks[i][k]);
    }
    wait_for_all();
    for (unsigned i = k + 1; i < BLOCKS; i++)
        for (unsigned j = k + 1; j < BLOCKS; j++)
            if (owns(thread, i, j))
                subtract_product(blocks[i][k], blocks[k][j], blocks[i][j]);
    wait_for_all();
}

static void work(unsigned thread) {
    for (unsigned place = thread; place < BLOCKS * BLOCKS; place += thread_count)
        fill(place / BLOCKS, place % BLOCKS);
    wait_for_all();
    for (unsigned k = 0; k < BLOCKS; k++)
        step(thread, k);
    unsigned long sum = 0;
    for (unsigned place = thread; place < BLOCKS * BLOCKS; place += thread_count)
        sum += check(place / BLOCKS, place % BLOCKS);
    tell(thread, sum);
}

int main(int words, char **word) {
    run_on_threads(words, word, work);
    printf("lu %d checksum %lu\n", SIDE, all_told());
    return 0;
}
