/* Sorts 2048 numbers by a heap. They have 16 KB, four times the default cache: the top of the heap stays in the
 * cache, and its bottom misses. */

#include "print.h"

enum { NUMBERS = 2048 };

static uint64_t numbers[NUMBERS];

/* Moves the number at `place` down until no number below it, of the first `count`, is greater. */
static void sink(unsigned place, unsigned count) {
    uint64_t number = numbers[place];
    for (unsigned child; (child = 2 * place + 1) < count; place = child) {
        if (child + 1 < count && numbers[child + 1] > numbers[child])
            child++;
        if (numbers[child] <= number)
            break;
        numbers[place] = numbers[child];
    }
    numbers[place] = number;
}

int main(void) {
    uint64_t random = 1;
    for (unsigned i = 0; i < NUMBERS; i++)
        numbers[i] = random = random * 6364136223846793005 + 1442695040888963407;
    for (unsigned i = NUMBERS / 2; i-- > 0;)
        sink(i, NUMBERS);
    for (unsigned last = NUMBERS - 1; last > 0; last--) {
        uint64_t greatest = numbers[0];
        numbers[0] = numbers[last];
        numbers[last] = greatest;
        sink(0, last);
    }
    unsigned long ascents = 0, checksum = 0;
    for (unsigned i = 0; i < NUMBERS; i++) {
        ascents += i > 0 && numbers[i - 1] <= numbers[i];
        checksum = checksum * 3 + numbers[i];
    }
    print_count("ascents", ascents);
    print_count("checksum", checksum);
    return 0;
}
