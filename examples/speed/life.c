/* Conway's game of life on a torus of 32 by 32 cells, a byte each. The old and the new cells together are 2 KB, so
 * they stay in the default cache of 4 KB, and nearly all accesses are hits. */

#include "print.h"

enum { SIDE = 32, GENERATIONS = 20 };

typedef unsigned char torus[SIDE][SIDE];

/* The old and the new cells, in turns. */
static torus cells[2];

/* About three cells in eight are alive at the start. */
static void fill(void) {
    unsigned random = 1;
    for (unsigned row = 0; row < SIDE; row++)
        for (unsigned column = 0; column < SIDE; column++) {
            random = random * 1664525 + 1013904223;
            cells[0][row][column] = random >> 29 < 3;
        }
}

/* From one generation to the next: a cell with three living neighbours lives, one with two stays as it is. */
static void live(torus from, torus to) {
    for (unsigned row = 0; row < SIDE; row++) {
        const unsigned char *above = from[(row + SIDE - 1) % SIDE], *here = from[row];
        const unsigned char *below = from[(row + 1) % SIDE];
        for (unsigned column = 0; column < SIDE; column++) {
            unsigned left = (column + SIDE - 1) % SIDE, right = (column + 1) % SIDE;
            unsigned neighbours = above[left] + above[column] + above[right] + here[left] + here[right] +
                                  below[left] + below[column] + below[right];
            to[row][column] = neighbours == 3 || (neighbours == 2 && here[column]);
        }
    }
}

int main(void) {
    fill();
    for (unsigned generation = 0; generation < GENERATIONS; generation++)
        live(cells[generation % 2], cells[(generation + 1) % 2]);
    const unsigned char *last = cells[GENERATIONS % 2][0];
    unsigned long alive = 0, checksum = 0;
    for (unsigned i = 0; i < SIDE * SIDE; i++) {
        alive += last[i];
        checksum = checksum * 3 + last[i];
    }
    print_count("alive", alive);
    print_count("checksum", checksum);
    return 0;
}
