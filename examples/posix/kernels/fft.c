/* FFT: the transform of 1024 complex numbers in six steps (Bailey, "FFTs in external or hierarchical memory", 1990), as
 * the kernel of SPLASH-2 makes it. The numbers are a square of 32 rows, of which each thread has some. Fixed point. */

#include "fixed.h"
#include "kernel.h"

#define SIDE 32
#define COUNT (SIDE * SIDE)

struct number {
    fixed real, imaginary;
};

static struct number numbers[COUNT] __attribute__((aligned(LINE_BYTES)));
static struct number other[COUNT] __attribute__((aligned(LINE_BYTES)));
static struct number roots[COUNT] __attribute__((aligned(LINE_BYTES))); /* of one */
static struct number low[SIDE], high[SIDE]; /* roots 0 to 31, and each 32nd */

static struct number product(struct number a, struct number b) {
    return (struct number){times(a.real, b.real) - times(a.imaginary, b.imaginary),
                           times(a.real, b.imaginary) + times(a.imaginary, b.real)};
}

/* Columns of one square become the thread's rows of the other. */
static void transpose(unsigned thread, const struct number *from, struct number *to) {
    for (unsigned row = share_begin(thread, SIDE); row < share_begin(thread + 1, SIDE); row++)
        for (unsigned column = 0; column < SIDE; column++)
            to[row * SIDE + column] = from[column * SIDE + row];
    wait_for_all();
}

static void reverse_bits(struct number *row) {
    for (unsigned i = 1, j = 0; i < SIDE; i++) {
        unsigned bit = SIDE / 2;
        for (; j & bit; bit /= 2)
            j -= bit;
        j += bit;
        if (i < j) {
            struct number swapped = row[i];
            row[i] = row[j];
            row[j] = swapped;
        }
    }
}

/* The transform of one row, in place. */
static void transform_row(struct number *row) {
    reverse_bits(row);
    for (unsigned half = 1; half < SIDE; half *= 2)
        for (unsigned first = 0; first < SIDE; first += 2 * half)
            for (unsigned k = 0; k < half; k++) {
                struct number *left = &row[first + k], *right = left + half;
                struct number turned = product(*right, roots[k * (COUNT / 2 / half)]);
                *right = (struct number){left->real - turned.real, left->imaginary - turned.imaginary};
                *left = (struct number){left->real + turned.real, left->imaginary + turned.imaginary};
            }
}

/* The powers of a root. */
static void find_powers(struct number root, struct number *powers) {
    powers[0] = (struct number){ONE, 0};
    powers[1] = root;
    for (unsigned i = 2; i < SIDE; i++)
        powers[i] = product(powers[i / 2], powers[i - i / 2]);
}

static void work(unsigned thread) {
    unsigned begin = share_begin(thread, SIDE), end = share_begin(thread + 1, SIDE);
    for (unsigned i = begin * SIDE; i < end * SIDE; i++) {
        numbers[i].real = (fixed)(drawn(i) % 2001) * ONE - 1000 * ONE;
        roots[i] = product(high[i / SIDE], low[i % SIDE]);
    }
    wait_for_all();
    transpose(thread, numbers, other);
    for (unsigned row = begin; row < end; row++) {
        transform_row(&other[row * SIDE]);
        for (unsigned column = 0; column < SIDE; column++)
            other[row * SIDE + column] = product(other[row * SIDE + column], roots[row * column]);
    }
    wait_for_all();
    transpose(thread, other, numbers);
    for (unsigned row = begin; row < end; row++)
        transform_row(&numbers[row * SIDE]);
    wait_for_all();
    transpose(thread, numbers, other);
    unsigned long sum = 0;
    for (unsigned i = begin * SIDE; i < end * SIDE; i++)
        sum += checked(i, (unsigned long)(other[i].real + 3 * other[i].imaginary));
    tell(thread, sum);
}

int main(int words, char **word) {
    find_powers((struct number){16776900, -102943}, low); /* a 1024th of a turn */
    find_powers(product(low[SIDE / 2], low[SIDE / 2]), high);
    run_on_threads(words, word, work);
    printf("fft %d checksum %lu\n", COUNT, all_told());
    return 0;
}
