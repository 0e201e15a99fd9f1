/* Programs for tilesim in C: its calls, threads, and a mutex, a condition variable and a barrier over futexes.
 * docs/CALLS.md has what each call does, docs/PROGRAMS.md how to build a program.
 *
 * Errors are answered as negative numbers, as Linux does. All atomic operations here have C's default order,
 * sequentially consistent, which also keeps the compiler from moving other accesses over them. */

#ifndef TILESIM_H
#define TILESIM_H

#include <stdatomic.h>
#include <stdbool.h>
#include <stddef.h>
#include <stdint.h>

/* A line of memory, the unit in which tiles share it, in bytes. */
#define LINE_BYTES 64

enum call_number {
    CALL_WRITE = 64,
    CALL_EXIT = 93,
    CALL_EXIT_GROUP = 94,
    CALL_FUTEX = 98,
    CALL_SCHED_YIELD = 124,
    CALL_GETTID = 178,
    CALL_BRK = 214,
    CALL_SPAWN = 2048,
    CALL_JOIN = 2049,
};

enum call_error {
    ERROR_NO_THREAD = -3,  /* no such thread, or it was joined already */
    ERROR_DESCRIPTOR = -9, /* neither 1 nor 2 */
    ERROR_AGAIN = -11,     /* no tile is idle; or the futex word has another value */
    ERROR_ADDRESS = -14,   /* a byte of the range isn't readable */
    ERROR_INVALID = -22,
    ERROR_NO_SPACE = -28, /* the program's whole output may have 1,048,576 bytes */
    ERROR_NO_CALL = -38,
};

/* Makes a call: the number in a7, the arguments in a0 to a3, the answer in a0. No other register changes. */
static inline long call(enum call_number number, long first, long second, long third, long fourth) {
    register long a7 __asm__("a7") = number;
    register long a0 __asm__("a0") = first;
    register long a1 __asm__("a1") = second;
    register long a2 __asm__("a2") = third;
    register long a3 __asm__("a3") = fourth;
    __asm__ volatile("ecall" : "+r"(a0) : "r"(a7), "r"(a1), "r"(a2), "r"(a3) : "memory");
    return a0;
}

/* Outputs up to 4096 bytes at once; answers how many it took, or an error. Outputs of threads don't mix
 * within one call. Descriptors 1 and 2 are the same output. */
static inline long write_bytes(int descriptor, const void *bytes, size_t count) {
    return call(CALL_WRITE, descriptor, (long)bytes, (long)count, 0);
}

/* Ends the program, all its threads, with the low byte of the code. */
static inline _Noreturn void program_exit(int code) {
    call(CALL_EXIT_GROUP, code, 0, 0, 0);
    __builtin_unreachable();
}

/* Ends this thread with the low byte of the code, which a join answers. The last thread's ends the program. */
static inline _Noreturn void thread_exit(int code) {
    call(CALL_EXIT, code, 0, 0, 0);
    __builtin_unreachable();
}

/* This thread's number; that of the program's first thread is 0. */
static inline long thread_number(void) { return call(CALL_GETTID, 0, 0, 0, 0); }

/* Does nothing but take the time of a call: each thread has a tile of its own. */
static inline void thread_yield(void) { call(CALL_SCHED_YIELD, 0, 0, 0, 0); }

/* Moves the end of the used heap to an address in the heap window, or to its end; answers where it is. With NULL
 * it moves nothing. The whole window can be read and written at any time, so this is mere bookkeeping. */
static inline void *set_break(void *address) { return (void *)call(CALL_BRK, (long)address, 0, 0, 0); }

/* Threads -------------------------------------------------------------------------------------------------- */

/* A thread: what it runs, and its number. It has to stay where it is until the thread has been joined. start.S
 * knows where its first two fields are. */
struct thread {
    long (*function)(void *argument);
    void *argument;
    long number;
};

_Static_assert(offsetof(struct thread, function) == 0 && offsetof(struct thread, argument) == 8, "start.S reads both");

/* Where each thread begins (start.S). */
void thread_entry(void);

/* Starts a thread on an idle tile. Answers 0, or ERROR_AGAIN where no tile is idle. */
static inline long thread_start(struct thread *thread, long (*function)(void *argument), void *argument) {
    thread->function = function;
    thread->argument = argument;
    thread->number = call(CALL_SPAWN, (long)thread_entry, (long)thread, 0, 0);
    return thread->number < 0 ? thread->number : 0;
}

/* Waits for a thread's end; answers the low byte of its function's result. A thread is joined once. */
static inline long thread_join(const struct thread *thread) { return call(CALL_JOIN, thread->number, 0, 0, 0); }

/* Starts the same function on idle tiles, `most` times or until none is idle. Answers how many were started. */
static inline unsigned threads_start(struct thread *threads, unsigned most, long (*function)(void *argument),
                                     void *argument) {
    unsigned count = 0;
    while (count < most && thread_start(&threads[count], function, argument) == 0)
        count++;
    return count;
}

/* Joins so many threads. */
static inline void threads_join(const struct thread *threads, unsigned count) {
    for (unsigned i = 0; i < count; i++)
        thread_join(&threads[i]);
}

/* Futexes -------------------------------------------------------------------------------------------------- */

/* A word at which threads wait. */
typedef _Atomic uint32_t futex_word;

#define WAKE_ALL UINT32_MAX

/* Waits until a wake, if the word has this value; else answers ERROR_AGAIN at once. No wake can fall between the
 * look at the word and the waiting. */
static inline long futex_wait(futex_word *word, uint32_t value) { return call(CALL_FUTEX, (long)word, 0, value, 0); }

/* Wakes at most `count` threads that wait at the word, the longest waiting first. Answers how many they were. */
static inline long futex_wake(futex_word *word, uint32_t count) { return call(CALL_FUTEX, (long)word, 1, count, 0); }

/* A mutex: all zeros is a free one --------------------------------------------------------------------------- */

enum mutex_state { MUTEX_FREE, MUTEX_HELD, MUTEX_WAITED_FOR };

struct mutex {
    futex_word state;
};

static inline void mutex_lock(struct mutex *mutex) {
    uint32_t seen = MUTEX_FREE;
    if (atomic_compare_exchange_strong(&mutex->state, &seen, MUTEX_HELD))
        return;
    while (atomic_exchange(&mutex->state, MUTEX_WAITED_FOR) != MUTEX_FREE)
        futex_wait(&mutex->state, MUTEX_WAITED_FOR);
}

static inline void mutex_unlock(struct mutex *mutex) {
    if (atomic_exchange(&mutex->state, MUTEX_FREE) == MUTEX_WAITED_FOR)
        futex_wake(&mutex->state, 1);
}

/* A condition variable: all zeros is one at which nobody waits --------------------------------------------- */

struct condition {
    futex_word signals;
};

/* Gives up the mutex, waits for a signal, and takes the mutex again. A signal that is given after the mutex was
 * given up isn't missed. It may also return without one: look at what was waited for again, in a loop. */
static inline void condition_wait(struct condition *condition, struct mutex *mutex) {
    uint32_t signals = atomic_load(&condition->signals);
    mutex_unlock(mutex);
    futex_wait(&condition->signals, signals);
    mutex_lock(mutex);
}

static inline void condition_signal(struct condition *condition) {
    atomic_fetch_add(&condition->signals, 1);
    futex_wake(&condition->signals, 1);
}

static inline void condition_broadcast(struct condition *condition) {
    atomic_fetch_add(&condition->signals, 1);
    futex_wake(&condition->signals, WAKE_ALL);
}

/* A barrier for a number of threads: `struct barrier barrier = {.threads = 4};` ------------------------------ */

struct barrier {
    uint32_t threads;
    _Atomic uint32_t arrived;
    futex_word phase;
};

/* Waits until all threads have come. Answers true to one of them, the last. */
static inline bool barrier_wait(struct barrier *barrier) {
    uint32_t phase = atomic_load(&barrier->phase);
    if (atomic_fetch_add(&barrier->arrived, 1) + 1 == barrier->threads) {
        atomic_store(&barrier->arrived, 0);
        atomic_fetch_add(&barrier->phase, 1);
        futex_wake(&barrier->phase, WAKE_ALL);
        return true;
    }
    while (atomic_load(&barrier->phase) == phase)
        futex_wait(&barrier->phase, phase);
    return false;
}

#endif
