/* Multiplies two matrices on as many tiles as are idle. A row of the product is one line of memory. The threads take
 * the elements of each row in turn, so all tiles write each line, which wanders from tile to tile; built with
 * -DBLOCKED, each thread has a block of whole rows, and nearly all accesses are hits. What is printed is the same. */

#include "print.h"
#include "tilesim.h"

enum { ROWS = 32, COLUMNS = LINE_BYTES / sizeof(unsigned), WORKERS_MOST = COLUMNS - 1 };

static _Alignas(LINE_BYTES) unsigned left[ROWS][COLUMNS], right[COLUMNS][COLUMNS], product[ROWS][COLUMNS];

/* How many parts the product has, one for each thread; 0 until all threads have been started. */
static futex_word parts;
static _Atomic unsigned next_part;

/* A part of the product: in the rows from the first to before the end, the first column and each a step farther. */
struct part {
    size_t first_row, end_row, first_column, column_step;
};

#ifdef BLOCKED
static struct part part_of(size_t number, size_t count) {
    return (struct part){ROWS * number / count, ROWS * (number + 1) / count, 0, 1};
}
#else
static struct part part_of(size_t number, size_t count) { return (struct part){0, ROWS, number, count}; }
#endif

/* Computes a part of the product. Each of its elements is read and written once for each row of the right matrix. */
static void multiply(struct part part) {
    for (size_t row = part.first_row; row < part.end_row; row++)
        for (size_t place = 0; place < COLUMNS; place++)
            for (size_t column = part.first_column; column < COLUMNS; column += part.column_step)
                product[row][column] += left[row][place] * right[place][column];
}

/* Waits until the number of parts is known, and computes the next part that nobody has taken. */
static long multiply_next(void *unused) {
    (void)unused;
    while (atomic_load(&parts) == 0)
        futex_wait(&parts, 0);
    multiply(part_of(atomic_fetch_add(&next_part, 1), atomic_load(&parts)));
    return 0;
}

static void fill(void) {
    for (unsigned row = 0; row < ROWS; row++)
        for (unsigned column = 0; column < COLUMNS; column++)
            left[row][column] = row + column;
    for (unsigned row = 0; row < COLUMNS; row++)
        for (unsigned column = 0; column < COLUMNS; column++)
            right[row][column] = row * COLUMNS + column;
}

/* A number to which each element of the product adds, and its place too. */
static unsigned long checksum(void) {
    unsigned long sum = 0;
    for (unsigned row = 0; row < ROWS; row++)
        for (unsigned column = 0; column < COLUMNS; column++)
            sum = 31 * sum + product[row][column];
    return sum;
}

int main(void) {
    struct thread workers[WORKERS_MOST];
    fill();
    unsigned count = threads_start(workers, WORKERS_MOST, multiply_next, NULL);
    atomic_store(&parts, count + 1);
    futex_wake(&parts, WAKE_ALL);
    multiply_next(NULL);
    threads_join(workers, count);
    print_count("elements", ROWS * COLUMNS);
    print_count("checksum", checksum());
    return 0;
}
