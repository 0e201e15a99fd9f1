/* POSIX threads for tilesim: a thread has a tile of its own, and waits by futexes. docs/PORTING.md has what isn't
 * there. A function that can't be had is refused by its name where it is called. */

#ifndef PTHREAD_H
#define PTHREAD_H

#include <errno.h>
#include <sched.h>
#include <stddef.h>
#include <stdint.h>
#include <sys/types.h>
#include <time.h>

#define PTHREAD_REFUSED(why) __attribute__((error("tilesim: " why)))

int sched_yield(void);

/* Threads */
typedef struct thread_descriptor *pthread_t;
typedef struct {
    size_t stack_bytes;
} pthread_attr_t;

enum { PTHREAD_CREATE_JOINABLE, PTHREAD_CREATE_DETACHED };
#define PTHREAD_STACK_MIN 4096

int pthread_create(pthread_t *thread, const pthread_attr_t *attributes, void *(*function)(void *), void *argument);
int pthread_join(pthread_t thread, void **result);
_Noreturn void pthread_exit(void *result);
pthread_t pthread_self(void);
static inline int pthread_equal(pthread_t left, pthread_t right) { return left == right; }
int pthread_attr_init(pthread_attr_t *attributes);
int pthread_attr_destroy(pthread_attr_t *attributes);
int pthread_attr_setstacksize(pthread_attr_t *attributes, size_t bytes);
int pthread_attr_getstacksize(const pthread_attr_t *attributes, size_t *bytes);
int pthread_attr_setdetachstate(pthread_attr_t *attributes, int state);
int pthread_attr_getdetachstate(const pthread_attr_t *attributes, int *state);

/* What a thread does at its end, if that comes between push and pop. */
struct pthread_cleanup {
    void (*function)(void *);
    void *argument;
    struct pthread_cleanup *before;
};
void pthread_cleanup_begin(struct pthread_cleanup *cleanup);
void pthread_cleanup_end(struct pthread_cleanup *cleanup, int is_run);
#define pthread_cleanup_push(function, argument) \
    do { \
        struct pthread_cleanup pthread_cleanup_ = {function, argument, NULL}; \
        pthread_cleanup_begin(&pthread_cleanup_)
#define pthread_cleanup_pop(is_run) \
        pthread_cleanup_end(&pthread_cleanup_, is_run); \
    } while (0)

/* No thread is ever cancelled. */
enum { PTHREAD_CANCEL_ENABLE, PTHREAD_CANCEL_DISABLE };
enum { PTHREAD_CANCEL_DEFERRED, PTHREAD_CANCEL_ASYNCHRONOUS };
int pthread_setcancelstate(int state, int *before);
int pthread_setcanceltype(int type, int *before);
static inline void pthread_testcancel(void) {}
int pthread_detach(pthread_t thread) PTHREAD_REFUSED("a thread can't be detached: join it");
int pthread_cancel(pthread_t thread) PTHREAD_REFUSED("a thread can't be cancelled: let it look at a flag");
int pthread_kill(pthread_t thread, int number) PTHREAD_REFUSED("there are no signals");

/* All memory is shared by all threads, so that an attribute may say so or not. */
enum { PTHREAD_PROCESS_PRIVATE, PTHREAD_PROCESS_SHARED };

/* Mutexes */
typedef struct {
    _Atomic uint32_t state;
    uint32_t type;
    pthread_t owner; /* of a recursive or error checking one */
    uint32_t depth;
} pthread_mutex_t;
typedef struct {
    uint32_t type;
} pthread_mutexattr_t;

enum {
    PTHREAD_MUTEX_NORMAL,
    PTHREAD_MUTEX_RECURSIVE,
    PTHREAD_MUTEX_ERRORCHECK,
    PTHREAD_MUTEX_DEFAULT = PTHREAD_MUTEX_NORMAL,
};
#define PTHREAD_MUTEX_INITIALIZER {0, PTHREAD_MUTEX_NORMAL, NULL, 0}
#define PTHREAD_RECURSIVE_MUTEX_INITIALIZER_NP {0, PTHREAD_MUTEX_RECURSIVE, NULL, 0}
#define PTHREAD_ERRORCHECK_MUTEX_INITIALIZER_NP {0, PTHREAD_MUTEX_ERRORCHECK, NULL, 0}

int pthread_mutex_init(pthread_mutex_t *mutex, const pthread_mutexattr_t *attributes);
int pthread_mutex_destroy(pthread_mutex_t *mutex);
int pthread_mutex_lock(pthread_mutex_t *mutex);
int pthread_mutex_trylock(pthread_mutex_t *mutex);
int pthread_mutex_unlock(pthread_mutex_t *mutex);
int pthread_mutexattr_init(pthread_mutexattr_t *attributes);
int pthread_mutexattr_destroy(pthread_mutexattr_t *attributes);
int pthread_mutexattr_settype(pthread_mutexattr_t *attributes, int type);
int pthread_mutexattr_gettype(const pthread_mutexattr_t *attributes, int *type);
int pthread_mutexattr_setpshared(pthread_mutexattr_t *attributes, int shared);
int pthread_mutex_timedlock(pthread_mutex_t *mutex, const struct timespec *until)
    PTHREAD_REFUSED("there is no clock: lock without a time-out");

/* Condition variables */
typedef struct {
    _Atomic uint32_t signals;
    _Atomic uint32_t waiting;
} pthread_cond_t;
typedef struct {
    int unused;
} pthread_condattr_t;
#define PTHREAD_COND_INITIALIZER {0, 0}

int pthread_condattr_init(pthread_condattr_t *attributes);
int pthread_condattr_destroy(pthread_condattr_t *attributes);
int pthread_condattr_setpshared(pthread_condattr_t *attributes, int shared);
int pthread_cond_init(pthread_cond_t *condition, const pthread_condattr_t *attributes);
int pthread_cond_destroy(pthread_cond_t *condition);
int pthread_cond_wait(pthread_cond_t *condition, pthread_mutex_t *mutex);
int pthread_cond_signal(pthread_cond_t *condition);
int pthread_cond_broadcast(pthread_cond_t *condition);
int pthread_cond_timedwait(pthread_cond_t *condition, pthread_mutex_t *mutex, const struct timespec *until)
    PTHREAD_REFUSED("there is no clock: wait without a time-out");

/* Barriers */
typedef struct {
    uint64_t threads;
    _Atomic uint64_t arrived;
    _Atomic uint64_t left;
    _Atomic uint32_t phase;
} pthread_barrier_t;
typedef struct {
    int unused;
} pthread_barrierattr_t;
#define PTHREAD_BARRIER_SERIAL_THREAD (-1)

int pthread_barrierattr_init(pthread_barrierattr_t *attributes);
int pthread_barrierattr_destroy(pthread_barrierattr_t *attributes);
int pthread_barrierattr_setpshared(pthread_barrierattr_t *attributes, int shared);
int pthread_barrier_init(pthread_barrier_t *barrier, const pthread_barrierattr_t *attributes, unsigned threads);
int pthread_barrier_destroy(pthread_barrier_t *barrier);
int pthread_barrier_wait(pthread_barrier_t *barrier);

/* Locks for readers and writers; readers are let in while others read, also where a writer waits */
typedef struct {
    pthread_mutex_t mutex;
    pthread_cond_t changed;
    uint32_t readers;
    pthread_t writer;
} pthread_rwlock_t;
typedef struct {
    int unused;
} pthread_rwlockattr_t;
#define PTHREAD_RWLOCK_INITIALIZER {PTHREAD_MUTEX_INITIALIZER, PTHREAD_COND_INITIALIZER, 0, NULL}

int pthread_rwlockattr_init(pthread_rwlockattr_t *attributes);
int pthread_rwlockattr_destroy(pthread_rwlockattr_t *attributes);
int pthread_rwlockattr_setpshared(pthread_rwlockattr_t *attributes, int shared);
int pthread_rwlock_init(pthread_rwlock_t *lock, const pthread_rwlockattr_t *attributes);
int pthread_rwlock_destroy(pthread_rwlock_t *lock);
int pthread_rwlock_rdlock(pthread_rwlock_t *lock);
int pthread_rwlock_tryrdlock(pthread_rwlock_t *lock);
int pthread_rwlock_wrlock(pthread_rwlock_t *lock);
int pthread_rwlock_trywrlock(pthread_rwlock_t *lock);
int pthread_rwlock_unlock(pthread_rwlock_t *lock);

/* Spin locks */
typedef _Atomic uint32_t pthread_spinlock_t;

int pthread_spin_init(pthread_spinlock_t *lock, int shared);
int pthread_spin_destroy(pthread_spinlock_t *lock);
int pthread_spin_lock(pthread_spinlock_t *lock);
int pthread_spin_trylock(pthread_spinlock_t *lock);
int pthread_spin_unlock(pthread_spinlock_t *lock);

/* Once, and values that each thread has for itself */
typedef _Atomic uint32_t pthread_once_t;
typedef unsigned pthread_key_t;
#define PTHREAD_ONCE_INIT 0
#define PTHREAD_KEYS_MAX 128
#define PTHREAD_DESTRUCTOR_ITERATIONS 4

int pthread_once(pthread_once_t *once, void (*function)(void));
int pthread_key_create(pthread_key_t *key, void (*destructor)(void *));
int pthread_key_delete(pthread_key_t key);
int pthread_setspecific(pthread_key_t key, const void *value);
void *pthread_getspecific(pthread_key_t key);

#endif
