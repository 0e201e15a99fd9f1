/* Multiplies, divides and counts by atomics: the greatest common divisor of two numbers, a factorial and a
 * product of 128 bits, the quotients and remainders that have their own rule, and a tally of remainders that
 * is kept by atomic operations. */

#include "../call.h"

typedef unsigned long word;

static char line[96];
static word length;

static void put(char c) {
    line[length++] = c;
    if (c == '\n') {
        call(64, 1, (long)line, (long)length);
        length = 0;
    }
}

static void put_number(word number, word base, char after) {
    char digits[24];
    int count = 0;
    do {
        digits[count++] = "0123456789abcdef"[number % base];
        number /= base;
    } while (number);
    while (count)
        put(digits[--count]);
    put(after);
}

static word gcd(word a, word b) {
    while (b) {
        word rest = a % b;
        a = b;
        b = rest;
    }
    return a;
}

static word factorial(word n) { return n ? n * factorial(n - 1) : 1; }

/* Not static, so that the compiler can't work them out. */
volatile long least = (long)(1ul << 63);
volatile long big = 0x123456789abcdef, minus_one = -1, zero = 0, seven = 7, minus_seven = -7, two = 2;
volatile int word_five = 5, word_zero = 0;
static word tally[8];
static int most, flags;

int main(void) {
    put_number(gcd(1071 * 462, 462 * 840), 10, ' ');
    put_number(factorial(20), 10, ' ');
    __int128 square = (__int128)big * -big;
    put_number((word)(square >> 64), 16, ' ');
    put_number((word)square, 16, '\n');

    put_number((word)(least / minus_one), 16, ' ');
    put_number((word)(least % minus_one), 16, ' ');
    put_number((word)(seven / zero), 16, ' ');
    put_number((word)(seven % zero), 16, ' ');
    put_number((word)-(minus_seven / two), 16, ' ');
    put_number((word)-(minus_seven % two), 16, ' ');
    put_number((word)(long)(word_five % word_zero), 16, '\n');

    for (word i = 1; i <= 1000; i++) {
        __atomic_fetch_add(&tally[i * i % 8], 1, __ATOMIC_SEQ_CST);
        int rest = (int)(i * 37 % 101);
        asm volatile("amomax.w zero, %1, (%0)" : : "r"(&most), "r"(rest) : "memory");
        __atomic_fetch_or(&flags, 1 << (rest % 31), __ATOMIC_SEQ_CST);
    }
    for (int k = 0; k < 8; k++)
        put_number(__atomic_exchange_n(&tally[k], 0, __ATOMIC_SEQ_CST), 10, ' ');
    put_number((word)most, 10, ' ');
    put_number((word)__atomic_fetch_and(&flags, 15, __ATOMIC_SEQ_CST), 16, ' ');
    put_number((word)flags, 16, '\n');
    return (int)gcd(91, 35);
}

asm(".section .text.start\n"
    ".globl _start\n"
    "_start: call main\n"
    "li a7, 93\n"
    "ecall\n");
