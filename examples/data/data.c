/* Counts letters in a table of zeroed data, by a text and an order of initialised data, and keeps the lines
 * that it prints on a heap whose place it works out from the end of its data. */

#include "../call.h"

static char text[] = "the quick brown fox jumps over the lazy dog";
static char order[] = {'o', 'e', 'r', 'u', 'z', 0};
static int counts[256];
extern char _end[];

int main(void) {
    /* The heap begins at the first page at or above the end of every segment. */
    char *heap = (char *)(((unsigned long)_end + 4095) & ~4095ul);
    char *line = heap;
    for (char *at = text; *at; at++)
        counts[(unsigned char)*at]++;
    text[0] = 'T';
    for (char *at = text; *at; at++)
        *line++ = *at;
    *line++ = '\n';
    for (char *letter = order; *letter; letter++) {
        *line++ = *letter;
        *line++ = '0' + counts[(unsigned char)*letter];
        *line++ = letter[1] ? ' ' : '\n';
    }
    call(64, 1, (long)heap, line - heap);
    return counts['o'] + counts[' '];
}

asm(".section .text.start\n"
    ".globl _start\n"
    "_start: call main\n"
    "li a7, 93\n"
    "ecall\n");
