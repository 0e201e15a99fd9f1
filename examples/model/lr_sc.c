/* Two threads add 1 to one word, a hundred times each, by a loop of a load-reserved and a store-conditional. */
#include "print.h"

static uint32_t total;

static long add(void *unused) {
    (void)unused;
    for (unsigned i = 0; i < 100; i++)
        __asm__ volatile("1: lr.w t0, (%0)\n"
                         "   addi t0, t0, 1\n"
                         "   sc.w t1, t0, (%0)\n"
                         "   bnez t1, 1b\n"
                         :
                         : "r"(&total)
                         : "t0", "t1", "memory");
    return 0;
}

int main(void) {
    struct thread thread;
    thread_start(&thread, add, NULL);
    add(NULL);
    thread_join(&thread);
    print_count("total", total);
    return 0;
}
