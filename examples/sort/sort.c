/* Sorts an array on the stack by recursion and prints it, then how many solutions the queens problem has
 * on boards of 1 to 6 rows. There is no multiplication, no division and no data that is written outside
 * the stack, so it compiles to RV64I and to one segment that is read and executed. */

#include "../call.h"

typedef unsigned long word;

static void print(const char *text, word length) {
    call(64, 1, (long)text, (long)length);
}

static void print_number(long number, char after) {
    static const int powers[5] = {10000, 1000, 100, 10, 1};
    char text[8];
    word length = 0;
    if (number < 0) {
        text[length++] = '-';
        number = -number;
    }
    for (int i = 0; i < 5; i++) {
        char digit = '0';
        while (number >= powers[i]) {
            number -= powers[i];
            digit++;
        }
        if (digit != '0' || length > 1 || (length == 1 && text[0] != '-') || i == 4)
            text[length++] = digit;
    }
    text[length++] = after;
    print(text, length);
}

static void sort(short *low, short *high) {
    if (high - low < 2)
        return;
    short pivot = *low;
    short *left = low, *right = high - 1;
    while (left <= right) {
        while (*left < pivot)
            left++;
        while (*right > pivot)
            right--;
        if (left <= right) {
            short held = *left;
            *left++ = *right;
            *right-- = held;
        }
    }
    sort(low, right + 1);
    sort(left, high);
}

static int queens(unsigned columns, unsigned left, unsigned right, unsigned board) {
    if (columns == board)
        return 1;
    int found = 0;
    unsigned free = board & ~(columns | left | right);
    while (free) {
        unsigned place = free & -free;
        free ^= place;
        found += queens(columns | place, (left | place) << 1, (right | place) >> 1, board);
    }
    return found;
}

int main(void) {
    short numbers[24];
    unsigned state = 12345;
    for (int i = 0; i < 24; i++) {
        state ^= state << 13;
        state ^= state >> 17;
        state ^= state << 5;
        numbers[i] = (short)(state >> 18) >> 1;
    }
    sort(numbers, numbers + 24);
    for (int i = 0; i < 24; i++)
        print_number(numbers[i], i == 23 ? '\n' : ' ');
    for (int rows = 1; rows <= 6; rows++)
        print_number(queens(0, 0, 0, (1u << rows) - 1), rows == 6 ? '\n' : ' ');
    return 7;
}

/* The stack pointer is set when the program begins; there are no arguments. */
asm(".section .text.start\n"
    ".globl _start\n"
    "_start: call main\n"
    "li a7, 93\n"
    "ecall\n");
