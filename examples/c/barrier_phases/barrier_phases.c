/* Pascal's triangle, a row a phase: each of four threads computes its share of the next row from the whole row
 * before it, then all meet at a barrier. Two rows are kept, so that no thread writes what another still reads. */

#include "print.h"
#include "tilesim.h"

enum { THREADS = 4, ROWS = 16 };

static unsigned long rows[2][ROWS + 1];
static struct barrier barrier = {.threads = THREADS};
static _Atomic unsigned next_share;

/* Computes every fourth number of each row. */
static long compute_share(void *unused) {
    (void)unused;
    unsigned share = atomic_fetch_add(&next_share, 1);
    for (unsigned row = 1; row <= ROWS; row++) {
        const unsigned long *above = rows[(row - 1) % 2];
        for (unsigned place = share; place <= row; place += THREADS)
            rows[row % 2][place] = above[place] + (place == 0 ? 0 : above[place - 1]);
        barrier_wait(&barrier);
    }
    return 0;
}

int main(void) {
    struct thread threads[THREADS - 1];
    rows[0][0] = 1;
    if (threads_start(threads, THREADS - 1, compute_share, NULL) < THREADS - 1)
        return 1;
    compute_share(NULL);
    threads_join(threads, THREADS - 1);

    static struct line line;
    unsigned long sum = 0;
    add_text(&line, "row 16:");
    for (unsigned place = 0; place <= ROWS; place++) {
        add_character(&line, ' ');
        add_number(&line, rows[ROWS % 2][place]);
        sum += rows[ROWS % 2][place];
    }
    print_line(&line);
    print_count("sum", sum);
    return 0;
}
