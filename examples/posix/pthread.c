/* POSIX threads and semaphores over tilesim's calls: spawn, join and futex. */

#include <pthread.h>
#include <semaphore.h>
#include <stdlib.h>

#include "linked.h"
#include "tilesim.h"

/* Threads ------------------------------------------------------------------------------------------------------ */

/* What is known of a thread. Its number is 0 until its creator has it; the first thread can't be joined. */
struct thread_descriptor {
    void *(*function)(void *);
    void *argument;
    void *result;
    _Atomic long number;
    struct key_value *values; /* of its keys; none before the first is set */
};

static struct thread_descriptor first;
static _Thread_local struct thread_descriptor *self;
static _Atomic unsigned live = 1;

void threads_begin(void) { self = &first; }

pthread_t pthread_self(void) { return self; }

static _Thread_local struct pthread_cleanup *cleanups; /* the last is the first to be done */

void pthread_cleanup_begin(struct pthread_cleanup *cleanup) {
    cleanup->before = cleanups;
    cleanups = cleanup;
}

void pthread_cleanup_end(struct pthread_cleanup *cleanup, int is_run) {
    cleanups = cleanup->before;
    if (is_run)
        cleanup->function(cleanup->argument);
}

static void destroy_values(void);

_Noreturn void pthread_exit(void *result) {
    self->result = result;
    while (cleanups != NULL)
        pthread_cleanup_end(cleanups, true);
    destroy_values();
    output_flush();
    if (atomic_fetch_sub(&live, 1) == 1)
        exit(0);
    thread_exit(0);
}

void thread_begin(struct thread_descriptor *thread) {
    self = thread;
    pthread_exit(thread->function(thread->argument));
}

int pthread_create(pthread_t *thread, const pthread_attr_t *attributes, void *(*function)(void *), void *argument) {
    if (attributes != NULL && attributes->stack_bytes > linked_stack_bytes)
        return EINVAL;
    struct thread_descriptor *made = calloc(1, sizeof *made);
    if (made == NULL)
        return EAGAIN;
    made->function = function;
    made->argument = argument;
    *thread = made;
    atomic_fetch_add(&live, 1);
    long number = call(CALL_SPAWN, (long)thread_entry, (long)made, 0, 0);
    if (number < 0) {
        atomic_fetch_sub(&live, 1);
        free(made);
        return EAGAIN;
    }
    atomic_store(&made->number, number);
    return 0;
}

int pthread_join(pthread_t thread, void **result) {
    if (thread == self)
        return EDEADLK;
    if (thread == &first)
        return EINVAL;
    while (atomic_load(&thread->number) == 0)
        thread_yield();
    long answer = call(CALL_JOIN, thread->number, 0, 0, 0);
    if (answer < 0)
        return answer == ERROR_NO_THREAD ? ESRCH : EINVAL;
    if (result != NULL)
        *result = thread->result;
    free(thread);
    return 0;
}

int pthread_attr_init(pthread_attr_t *attributes) {
    attributes->stack_bytes = linked_stack_bytes;
    return 0;
}

int pthread_attr_destroy(pthread_attr_t *attributes) {
    (void)attributes;
    return 0;
}

int pthread_attr_setstacksize(pthread_attr_t *attributes, size_t bytes) {
    if (bytes < PTHREAD_STACK_MIN || bytes > linked_stack_bytes)
        return EINVAL;
    attributes->stack_bytes = bytes;
    return 0;
}

int pthread_attr_getstacksize(const pthread_attr_t *attributes, size_t *bytes) {
    *bytes = attributes->stack_bytes;
    return 0;
}

int pthread_attr_setdetachstate(pthread_attr_t *attributes, int state) {
    (void)attributes;
    return state == PTHREAD_CREATE_JOINABLE ? 0 : ENOTSUP;
}

int pthread_attr_getdetachstate(const pthread_attr_t *attributes, int *state) {
    (void)attributes;
    *state = PTHREAD_CREATE_JOINABLE;
    return 0;
}

int pthread_setcancelstate(int state, int *before) {
    static _Thread_local int now = PTHREAD_CANCEL_ENABLE;
    if (before != NULL)
        *before = now;
    now = state;
    return 0;
}

int pthread_setcanceltype(int type, int *before) {
    static _Thread_local int now = PTHREAD_CANCEL_DEFERRED;
    if (before != NULL)
        *before = now;
    now = type;
    return 0;
}

/* Attributes that say nothing here. */
#define EMPTY_ATTRIBUTES(name) \
    int pthread_##name##_init(pthread_##name##_t *attributes) { return (void)attributes, 0; } \
    int pthread_##name##_destroy(pthread_##name##_t *attributes) { return (void)attributes, 0; }
#define SHARED_ATTRIBUTE(name) \
    int pthread_##name##_setpshared(pthread_##name##_t *attributes, int shared) { \
        (void)attributes; \
        return shared == PTHREAD_PROCESS_PRIVATE || shared == PTHREAD_PROCESS_SHARED ? 0 : EINVAL; \
    }
EMPTY_ATTRIBUTES(condattr)
EMPTY_ATTRIBUTES(barrierattr)
EMPTY_ATTRIBUTES(rwlockattr)
SHARED_ATTRIBUTE(mutexattr)
SHARED_ATTRIBUTE(condattr)
SHARED_ATTRIBUTE(barrierattr)
SHARED_ATTRIBUTE(rwlockattr)

/* Mutexes ------------------------------------------------------------------------------------------------------ */

enum { FREE, HELD, WAITED_FOR };

int pthread_mutex_init(pthread_mutex_t *mutex, const pthread_mutexattr_t *attributes) {
    *mutex = (pthread_mutex_t)PTHREAD_MUTEX_INITIALIZER;
    if (attributes != NULL)
        mutex->type = attributes->type;
    return 0;
}

int pthread_mutex_destroy(pthread_mutex_t *mutex) { return atomic_load(&mutex->state) == FREE ? 0 : EBUSY; }

/* What a lock of a mutex answers that its caller holds already. */
static int lock_again(pthread_mutex_t *mutex, int error) {
    if (mutex->type == PTHREAD_MUTEX_ERRORCHECK)
        return error;
    mutex->depth++;
    return 0;
}

/* The caller has the mutex from now on. */
static int locked(pthread_mutex_t *mutex) {
    if (mutex->type != PTHREAD_MUTEX_NORMAL)
        mutex->owner = self;
    return 0;
}

int pthread_mutex_lock(pthread_mutex_t *mutex) {
    if (mutex->type != PTHREAD_MUTEX_NORMAL && mutex->owner == self)
        return lock_again(mutex, EDEADLK);
    uint32_t seen = FREE;
    if (!atomic_compare_exchange_strong(&mutex->state, &seen, HELD))
        while (atomic_exchange(&mutex->state, WAITED_FOR) != FREE)
            futex_wait(&mutex->state, WAITED_FOR);
    return locked(mutex);
}

int pthread_mutex_trylock(pthread_mutex_t *mutex) {
    if (mutex->type != PTHREAD_MUTEX_NORMAL && mutex->owner == self)
        return lock_again(mutex, EBUSY);
    uint32_t seen = FREE;
    return atomic_compare_exchange_strong(&mutex->state, &seen, HELD) ? locked(mutex) : EBUSY;
}

int pthread_mutex_unlock(pthread_mutex_t *mutex) {
    if (mutex->type != PTHREAD_MUTEX_NORMAL) {
        if (mutex->owner != self)
            return EPERM;
        if (mutex->depth > 0) {
            mutex->depth--;
            return 0;
        }
        mutex->owner = NULL;
    }
    if (atomic_exchange(&mutex->state, FREE) == WAITED_FOR)
        futex_wake(&mutex->state, 1);
    return 0;
}

int pthread_mutexattr_init(pthread_mutexattr_t *attributes) {
    attributes->type = PTHREAD_MUTEX_DEFAULT;
    return 0;
}

int pthread_mutexattr_destroy(pthread_mutexattr_t *attributes) {
    (void)attributes;
    return 0;
}

int pthread_mutexattr_settype(pthread_mutexattr_t *attributes, int type) {
    if (type < PTHREAD_MUTEX_NORMAL || type > PTHREAD_MUTEX_ERRORCHECK)
        return EINVAL;
    attributes->type = (uint32_t)type;
    return 0;
}

int pthread_mutexattr_gettype(const pthread_mutexattr_t *attributes, int *type) {
    *type = (int)attributes->type;
    return 0;
}

/* Condition variables: a wait ends after a signal that was given since the mutex was given up ------------------- */

int pthread_cond_init(pthread_cond_t *condition, const pthread_condattr_t *attributes) {
    (void)attributes;
    atomic_store(&condition->signals, 0);
    atomic_store(&condition->waiting, 0);
    return 0;
}

/* A thread that was woken may still be on its way out: the memory may be used anew after all are. */
int pthread_cond_destroy(pthread_cond_t *condition) {
    while (atomic_load(&condition->waiting) > 0)
        thread_yield();
    return 0;
}

int pthread_cond_wait(pthread_cond_t *condition, pthread_mutex_t *mutex) {
    atomic_fetch_add(&condition->waiting, 1);
    uint32_t signals = atomic_load(&condition->signals);
    uint32_t depth = mutex->depth;
    mutex->depth = 0;
    int error = pthread_mutex_unlock(mutex);
    if (error == 0)
        futex_wait(&condition->signals, signals);
    atomic_fetch_sub(&condition->waiting, 1);
    if (error == 0)
        pthread_mutex_lock(mutex);
    mutex->depth = depth;
    return error;
}

/* A thread that isn't seen to wait sees the signal before it does. */
static int signal_threads(pthread_cond_t *condition, uint32_t most) {
    atomic_fetch_add(&condition->signals, 1);
    if (atomic_load(&condition->waiting) > 0)
        futex_wake(&condition->signals, most);
    return 0;
}

int pthread_cond_signal(pthread_cond_t *condition) { return signal_threads(condition, 1); }
int pthread_cond_broadcast(pthread_cond_t *condition) { return signal_threads(condition, WAKE_ALL); }

/* Barriers ------------------------------------------------------------------------------------------------------ */

int pthread_barrier_init(pthread_barrier_t *barrier, const pthread_barrierattr_t *attributes, unsigned threads) {
    (void)attributes;
    if (threads == 0)
        return EINVAL;
    barrier->threads = threads;
    atomic_store(&barrier->arrived, 0);
    atomic_store(&barrier->left, 0);
    atomic_store(&barrier->phase, 0);
    return 0;
}

/* A thread that leaves looks at the barrier until it has counted itself in `left`; the memory may be used anew
 * after all have. */
int pthread_barrier_destroy(pthread_barrier_t *barrier) {
    while (atomic_load(&barrier->left) != atomic_load(&barrier->arrived))
        thread_yield();
    return 0;
}

int pthread_barrier_wait(pthread_barrier_t *barrier) {
    uint32_t phase = atomic_load(&barrier->phase);
    bool is_last = (atomic_fetch_add(&barrier->arrived, 1) + 1) % barrier->threads == 0;
    if (is_last) {
        atomic_fetch_add(&barrier->phase, 1);
        futex_wake(&barrier->phase, WAKE_ALL);
    } else {
        while (atomic_load(&barrier->phase) == phase)
            futex_wait(&barrier->phase, phase);
    }
    atomic_fetch_add(&barrier->left, 1);
    return is_last ? PTHREAD_BARRIER_SERIAL_THREAD : 0;
}

/* Locks for readers and writers ---------------------------------------------------------------------------------- */

int pthread_rwlock_init(pthread_rwlock_t *lock, const pthread_rwlockattr_t *attributes) {
    (void)attributes;
    *lock = (pthread_rwlock_t)PTHREAD_RWLOCK_INITIALIZER;
    return 0;
}

int pthread_rwlock_destroy(pthread_rwlock_t *lock) { return lock->readers || lock->writer ? EBUSY : 0; }

/* Takes the lock for reading; where it is taken, waits or answers EBUSY. */
static int read_lock(pthread_rwlock_t *lock, bool waits) {
    int error = 0;
    pthread_mutex_lock(&lock->mutex);
    if (waits && lock->writer == self)
        error = EDEADLK;
    while (error == 0 && waits && lock->writer != NULL)
        pthread_cond_wait(&lock->changed, &lock->mutex);
    if (error == 0 && lock->writer != NULL)
        error = EBUSY;
    if (error == 0)
        lock->readers++;
    pthread_mutex_unlock(&lock->mutex);
    return error;
}

/* The same for writing. */
static int write_lock(pthread_rwlock_t *lock, bool waits) {
    int error = 0;
    pthread_mutex_lock(&lock->mutex);
    if (waits && lock->writer == self)
        error = EDEADLK;
    while (error == 0 && waits && (lock->writer != NULL || lock->readers > 0))
        pthread_cond_wait(&lock->changed, &lock->mutex);
    if (error == 0 && (lock->writer != NULL || lock->readers > 0))
        error = EBUSY;
    if (error == 0)
        lock->writer = self;
    pthread_mutex_unlock(&lock->mutex);
    return error;
}

int pthread_rwlock_rdlock(pthread_rwlock_t *lock) { return read_lock(lock, true); }
int pthread_rwlock_tryrdlock(pthread_rwlock_t *lock) { return read_lock(lock, false); }
int pthread_rwlock_wrlock(pthread_rwlock_t *lock) { return write_lock(lock, true); }
int pthread_rwlock_trywrlock(pthread_rwlock_t *lock) { return write_lock(lock, false); }

int pthread_rwlock_unlock(pthread_rwlock_t *lock) {
    pthread_mutex_lock(&lock->mutex);
    if (lock->writer != NULL)
        lock->writer = NULL;
    else
        lock->readers--;
    if (lock->readers == 0)
        pthread_cond_broadcast(&lock->changed);
    pthread_mutex_unlock(&lock->mutex);
    return 0;
}

/* Spin locks ----------------------------------------------------------------------------------------------------- */

int pthread_spin_init(pthread_spinlock_t *lock, int shared) {
    (void)shared;
    atomic_store(lock, 0);
    return 0;
}

int pthread_spin_destroy(pthread_spinlock_t *lock) {
    (void)lock;
    return 0;
}

int pthread_spin_trylock(pthread_spinlock_t *lock) { return atomic_exchange(lock, 1) == 0 ? 0 : EBUSY; }

int pthread_spin_lock(pthread_spinlock_t *lock) {
    while (atomic_exchange(lock, 1) != 0)
        while (atomic_load(lock) != 0) {
        }
    return 0;
}

int pthread_spin_unlock(pthread_spinlock_t *lock) {
    atomic_store(lock, 0);
    return 0;
}

/* Once, and keys --------------------------------------------------------------------------------------------------- */

enum { NOT_YET, UNDER_WAY, DONE };

int pthread_once(pthread_once_t *once, void (*function)(void)) {
    uint32_t seen = NOT_YET;
    if (atomic_load(once) == DONE)
        return 0;
    if (atomic_compare_exchange_strong(once, &seen, UNDER_WAY)) {
        function();
        atomic_store(once, DONE);
        futex_wake(once, WAKE_ALL);
    }
    while (atomic_load(once) == UNDER_WAY)
        futex_wait(once, UNDER_WAY);
    return 0;
}

static pthread_mutex_t keys_lock = PTHREAD_MUTEX_INITIALIZER;
static struct {
    bool is_used;
    unsigned made; /* how often the key was made: a value of an earlier one counts no more */
    void (*destructor)(void *);
} keys[PTHREAD_KEYS_MAX];

/* A thread's value, and of which making of the key it is. */
struct key_value {
    unsigned made;
    void *value;
};

int pthread_key_create(pthread_key_t *key, void (*destructor)(void *)) {
    int error = EAGAIN;
    pthread_mutex_lock(&keys_lock);
    for (unsigned i = 0; i < PTHREAD_KEYS_MAX && error != 0; i++)
        if (!keys[i].is_used) {
            keys[i].is_used = true;
            keys[i].made++;
            keys[i].destructor = destructor;
            *key = i;
            error = 0;
        }
    pthread_mutex_unlock(&keys_lock);
    return error;
}

static bool is_key(pthread_key_t key) { return key < PTHREAD_KEYS_MAX && keys[key].is_used; }

int pthread_key_delete(pthread_key_t key) {
    if (!is_key(key))
        return EINVAL;
    keys[key].is_used = false;
    return 0;
}

int pthread_setspecific(pthread_key_t key, const void *value) {
    if (!is_key(key))
        return EINVAL;
    if (self->values == NULL)
        self->values = calloc(PTHREAD_KEYS_MAX, sizeof *self->values);
    if (self->values == NULL)
        return ENOMEM;
    self->values[key] = (struct key_value){keys[key].made, (void *)value};
    return 0;
}

void *pthread_getspecific(pthread_key_t key) {
    if (self->values == NULL || !is_key(key) || self->values[key].made != keys[key].made)
        return NULL;
    return self->values[key].value;
}

/* Calls the destructors of this thread's values, again while they set new ones, a few times at most. */
static void destroy_values(void) {
    bool goes_on = self->values != NULL;
    for (unsigned round = 0; goes_on && round < PTHREAD_DESTRUCTOR_ITERATIONS; round++) {
        goes_on = false;
        for (unsigned i = 0; i < PTHREAD_KEYS_MAX; i++) {
            void *value = pthread_getspecific(i);
            self->values[i].value = NULL;
            if (value != NULL && keys[i].destructor != NULL) {
                keys[i].destructor(value);
                goes_on = true;
            }
        }
    }
    free(self->values);
    self->values = NULL;
}

/* Semaphores ------------------------------------------------------------------------------------------------------- */

static int refuse(int error) {
    errno = error;
    return -1;
}

int sem_init(sem_t *semaphore, int shared, unsigned value) {
    (void)shared;
    if (value > SEM_VALUE_MAX)
        return refuse(EINVAL);
    atomic_store(&semaphore->value, value);
    atomic_store(&semaphore->waiting, 0);
    return 0;
}

int sem_destroy(sem_t *semaphore) {
    (void)semaphore;
    return 0;
}

static bool take(sem_t *semaphore) {
    uint32_t value = atomic_load(&semaphore->value);
    while (value > 0)
        if (atomic_compare_exchange_weak(&semaphore->value, &value, value - 1))
            return true;
    return false;
}

int sem_wait(sem_t *semaphore) {
    if (take(semaphore))
        return 0;
    atomic_fetch_add(&semaphore->waiting, 1);
    while (!take(semaphore))
        futex_wait(&semaphore->value, 0);
    atomic_fetch_sub(&semaphore->waiting, 1);
    return 0;
}

int sem_trywait(sem_t *semaphore) { return take(semaphore) ? 0 : refuse(EAGAIN); }

int sem_post(sem_t *semaphore) {
    atomic_fetch_add(&semaphore->value, 1);
    if (atomic_load(&semaphore->waiting) > 0)
        futex_wake(&semaphore->value, 1);
    return 0;
}

int sem_getvalue(sem_t *semaphore, int *value) {
    *value = (int)atomic_load(&semaphore->value);
    return 0;
}
