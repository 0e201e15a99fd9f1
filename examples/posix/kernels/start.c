/* Threads that are started and joined, and do nothing: what the other kernels' times have in common. */

#include "kernel.h"

static void work(unsigned thread) { (void)thread; }

int main(int words, char **word) {
    run_on_threads(words, word, work);
    puts("start");
    return 0;
}
