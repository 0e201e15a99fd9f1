/* What the kernels have in common: threads that begin together, a share of work, and drawn numbers.
 *
 * A kernel runs on as many threads as its first word says, or else sysconf(_SC_NPROCESSORS_ONLN), or on fewer where no
 * tile is free for one more. So one image runs on any number of tiles. What it prints is the same on all of them. */

#ifndef KERNEL_H
#define KERNEL_H

#include <pthread.h>
#include <stdio.h>
#include <stdlib.h>
#include <unistd.h>

#define MOST_THREADS 64
#define LINE_BYTES 64

static unsigned thread_count;
static pthread_barrier_t all_threads;

static unsigned wanted;
static void (*thread_work)(unsigned thread);
static pthread_t started[MOST_THREADS];
static pthread_once_t start = PTHREAD_ONCE_INIT;

static void start_threads(void);

static void *run_thread(void *number) {
    pthread_once(&start, start_threads); /* waits until all have been started */
    thread_work((unsigned)(size_t)number);
    return NULL;
}

static void start_threads(void) {
    thread_count = 1;
    while (thread_count < wanted &&
           pthread_create(&started[thread_count], NULL, run_thread, (void *)(size_t)thread_count) == 0)
        thread_count++;
    pthread_barrier_init(&all_threads, NULL, thread_count);
}

/* Runs the same function on all threads, and waits until it has ended on each. */
static void run_on_threads(int words, char **word, void (*work)(unsigned thread)) {
    wanted = words > 1 ? (unsigned)atoi(word[1]) : (unsigned)sysconf(_SC_NPROCESSORS_ONLN);
    if (wanted < 1 || wanted > MOST_THREADS)
        wanted = MOST_THREADS;
    thread_work = work;
    pthread_once(&start, start_threads);
    work(0);
    for (unsigned thread = 1; thread < thread_count; thread++)
        pthread_join(started[thread], NULL);
    pthread_barrier_destroy(&all_threads);
}

static inline void wait_for_all(void) { pthread_barrier_wait(&all_threads); }

/* The thread's share of so many pieces: from `share_begin` up to and without that of the next thread. */
static inline unsigned share_begin(unsigned thread, unsigned pieces) { return pieces * thread / thread_count; }

/* A number that looks random, below 2^31, for each place of a kernel's data (Steele and others' SplitMix). */
static inline unsigned drawn(unsigned long place) {
    unsigned long number = place * 0x9e3779b97f4a7c15u;
    number = (number ^ number >> 30) * 0xbf58476d1ce4e5b9u;
    number = (number ^ number >> 27) * 0x94d049bb133111ebu;
    return (unsigned)(number >> 33);
}

/* What each thread tells of its results, in a line of memory of its own, and the sum of it modulo 2^64. */
static struct told {
    unsigned long number;
    char rest[LINE_BYTES - sizeof(unsigned long)];
} told[MOST_THREADS] __attribute__((aligned(LINE_BYTES)));

static inline void tell(unsigned thread, unsigned long number) { told[thread].number = number; }

static inline unsigned long all_told(void) {
    unsigned long sum = 0;
    for (unsigned thread = 0; thread < thread_count; thread++)
        sum += told[thread].number;
    return sum;
}

/* The part that a number at a place has in a checksum, which is a sum, so that threads can add it up in any order. */
static inline unsigned long checked(unsigned long place, unsigned long number) { return (2 * place + 1) * number; }

#endif
