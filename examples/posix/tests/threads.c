/* What pthread.h, semaphore.h and the library promise, each once. Prints a line for each part. */

#include <errno.h>
#include <fcntl.h>
#include <pthread.h>
#include <sched.h>
#include <semaphore.h>
#include <stdio.h>
#include <stdlib.h>
#include <string.h>
#include <unistd.h>

#define CHECK(fact) \
    do { \
        if (!(fact)) { \
            printf("line %d: not so: %s\n", __LINE__, #fact); \
            exit(1); \
        } \
    } while (0)

#define THREADS 3

static pthread_t threads[THREADS];

static void start(void *(*function)(void *)) {
    for (long i = 0; i < THREADS; i++)
        CHECK(pthread_create(&threads[i], NULL, function, (void *)i) == 0);
}

static void join(void) {
    for (long i = 0; i < THREADS; i++)
        CHECK(pthread_join(threads[i], NULL) == 0);
}

/* Results, and more threads than tiles */
static void *square(void *number) {
    if ((long)number == 2)
        pthread_exit((void *)4);
    return (void *)((long)number * (long)number);
}

static void test_threads(void) {
    void *result;
    pthread_t one_more;
    start(square);
    int error = pthread_create(&one_more, NULL, square, NULL);
    CHECK(error == 0 || error == EAGAIN);
    if (error == 0)
        CHECK(pthread_join(one_more, NULL) == 0);
    for (long i = 0; i < THREADS; i++) {
        CHECK(pthread_join(threads[i], &result) == 0);
        CHECK((long)result == i * i);
    }
    CHECK(pthread_join(pthread_self(), NULL) == EDEADLK);
    CHECK(pthread_equal(pthread_self(), pthread_self()));
    puts("threads");
}

static void test_attributes(void) {
    pthread_attr_t attributes;
    size_t bytes;
    CHECK(pthread_attr_init(&attributes) == 0);
    CHECK(pthread_attr_setstacksize(&attributes, 32768) == 0);
    CHECK(pthread_attr_getstacksize(&attributes, &bytes) == 0 && bytes == 32768);
    CHECK(pthread_create(&threads[0], &attributes, square, NULL) == 0);
    CHECK(pthread_join(threads[0], NULL) == 0);
    CHECK(pthread_attr_destroy(&attributes) == 0);
    puts("attributes");
}

/* Mutexes */
static pthread_mutex_t plain = PTHREAD_MUTEX_INITIALIZER;
static pthread_mutex_t strict, recursive;
static long count;

static void *add(void *unused) {
    for (int i = 0; i < 50; i++) {
        pthread_mutex_lock(&plain);
        count++;
        pthread_mutex_unlock(&plain);
    }
    CHECK(pthread_mutex_unlock(&strict) == EPERM);
    CHECK(pthread_mutex_trylock(&recursive) == EBUSY);
    return unused;
}

static void init(pthread_mutex_t *mutex, int type) {
    pthread_mutexattr_t attributes;
    pthread_mutexattr_init(&attributes);
    CHECK(pthread_mutexattr_settype(&attributes, type) == 0);
    CHECK(pthread_mutex_init(mutex, &attributes) == 0);
    pthread_mutexattr_destroy(&attributes);
}

static void test_mutexes(void) {
    init(&strict, PTHREAD_MUTEX_ERRORCHECK);
    init(&recursive, PTHREAD_MUTEX_RECURSIVE);
    CHECK(pthread_mutex_lock(&strict) == 0 && pthread_mutex_lock(&strict) == EDEADLK);
    CHECK(pthread_mutex_lock(&recursive) == 0 && pthread_mutex_trylock(&recursive) == 0);
    start(add);
    join();
    CHECK(count == 50 * THREADS);
    CHECK(pthread_mutex_unlock(&recursive) == 0 && pthread_mutex_unlock(&recursive) == 0);
    CHECK(pthread_mutex_unlock(&recursive) == EPERM);
    CHECK(pthread_mutex_unlock(&strict) == 0);
    CHECK(pthread_mutex_destroy(&strict) == 0);
    puts("mutexes");
}

/* Condition variables: the threads take turns */
static pthread_cond_t changed = PTHREAD_COND_INITIALIZER;
static long turn;

static void *take_turns(void *number) {
    for (int i = 0; i < 5; i++) {
        pthread_mutex_lock(&plain);
        while (turn % THREADS != (long)number)
            pthread_cond_wait(&changed, &plain);
        turn++;
        pthread_cond_broadcast(&changed);
        pthread_mutex_unlock(&plain);
    }
    return NULL;
}

static void test_conditions(void) {
    start(take_turns);
    join();
    CHECK(turn == 5 * THREADS);
    puts("condition variables");
}

/* Barriers: the one that is told so destroys it, and it is made anew in the same place */
static pthread_barrier_t barrier, first_barrier;
static _Atomic int serial;

static void *meet(void *unused) {
    for (int i = 0; i < 10; i++) {
        if (pthread_barrier_wait(&barrier) == PTHREAD_BARRIER_SERIAL_THREAD) {
            serial++;
            CHECK(pthread_barrier_destroy(&barrier) == 0);
            CHECK(pthread_barrier_init(&barrier, NULL, THREADS) == 0);
        }
        pthread_barrier_wait(&first_barrier);
    }
    return unused;
}

static void test_barriers(void) {
    CHECK(pthread_barrier_init(&barrier, NULL, 0) == EINVAL);
    CHECK(pthread_barrier_init(&barrier, NULL, THREADS) == 0);
    CHECK(pthread_barrier_init(&first_barrier, NULL, THREADS) == 0);
    start(meet);
    join();
    CHECK(serial == 10);
    puts("barriers");
}

/* Readers and writers */
static pthread_rwlock_t shared = PTHREAD_RWLOCK_INITIALIZER;
static long left, right;

static void *read_or_write(void *number) {
    for (int i = 0; i < 20; i++) {
        if ((long)number == 0) {
            pthread_rwlock_wrlock(&shared);
            left++;
            right++;
        } else {
            pthread_rwlock_rdlock(&shared);
            CHECK(left == right);
        }
        pthread_rwlock_unlock(&shared);
    }
    return NULL;
}

static void test_rwlocks(void) {
    CHECK(pthread_rwlock_rdlock(&shared) == 0 && pthread_rwlock_tryrdlock(&shared) == 0);
    CHECK(pthread_rwlock_trywrlock(&shared) == EBUSY);
    CHECK(pthread_rwlock_unlock(&shared) == 0 && pthread_rwlock_unlock(&shared) == 0);
    CHECK(pthread_rwlock_trywrlock(&shared) == 0 && pthread_rwlock_tryrdlock(&shared) == EBUSY);
    CHECK(pthread_rwlock_rdlock(&shared) == EDEADLK && pthread_rwlock_wrlock(&shared) == EDEADLK);
    CHECK(pthread_rwlock_unlock(&shared) == 0);
    start(read_or_write);
    join();
    CHECK(left == 20 && right == 20);
    puts("locks for readers and writers");
}

/* Spin locks, once, keys */
static pthread_spinlock_t spin;
static pthread_once_t once = PTHREAD_ONCE_INIT;
static pthread_key_t key;
static int made;
static _Atomic int destroyed;

static void make(void) { made++; }

static void destroy(void *value) { destroyed += *(int *)value; }

static void *use_all(void *number) {
    static int values[THREADS] = {1, 10, 100};
    pthread_once(&once, make);
    CHECK(pthread_getspecific(key) == NULL);
    CHECK(pthread_setspecific(key, &values[(long)number]) == 0);
    for (int i = 0; i < 20; i++) {
        pthread_spin_lock(&spin);
        count++;
        pthread_spin_unlock(&spin);
        sched_yield();
    }
    CHECK(pthread_getspecific(key) == &values[(long)number]);
    return NULL;
}

static void test_rest(void) {
    count = 0;
    CHECK(pthread_spin_init(&spin, PTHREAD_PROCESS_PRIVATE) == 0);
    CHECK(pthread_key_create(&key, destroy) == 0);
    start(use_all);
    join();
    CHECK(count == 20 * THREADS && made == 1 && destroyed == 111);
    CHECK(pthread_setspecific(key, &count) == 0 && pthread_key_delete(key) == 0);
    CHECK(pthread_getspecific(key) == NULL && pthread_setspecific(key, &count) == EINVAL);
    CHECK(pthread_key_create(&key, NULL) == 0 && pthread_getspecific(key) == NULL);
    CHECK(pthread_key_delete(key) == 0 && pthread_key_delete(key) == EINVAL);
    puts("spin locks, once, keys");
}

/* What is done at a thread's end, the last first */
static char done[8];

static void note(void *letter) { strcat(done, letter); }

static void *end_early(void *unused) {
    pthread_cleanup_push(note, "a");
    pthread_cleanup_push(note, "b");
    pthread_cleanup_push(note, "c");
    pthread_cleanup_pop(0);
    pthread_cleanup_push(note, "d");
    pthread_cleanup_pop(1);
    pthread_exit(unused);
    pthread_cleanup_pop(0);
    pthread_cleanup_pop(0);
    return NULL;
}

static void test_cleanups(void) {
    CHECK(pthread_create(&threads[0], NULL, end_early, NULL) == 0 && pthread_join(threads[0], NULL) == 0);
    CHECK(strcmp(done, "dba") == 0);
    puts("clean-ups");
}

/* A condition variable is destroyed and made anew, while threads that were woken are on their way out */
static pthread_cond_t reused = PTHREAD_COND_INITIALIZER;
static int arrived, opened;

static void *wait_once(void *unused) {
    pthread_mutex_lock(&plain);
    int before = opened;
    if (++arrived == THREADS)
        pthread_cond_broadcast(&changed);
    while (opened == before)
        pthread_cond_wait(&reused, &plain);
    pthread_mutex_unlock(&plain);
    return unused;
}

static void test_reuse(void) {
    for (int i = 0; i < 5; i++) {
        arrived = 0;
        start(wait_once);
        pthread_mutex_lock(&plain);
        while (arrived < THREADS)
            pthread_cond_wait(&changed, &plain);
        opened++;
        pthread_cond_broadcast(&reused);
        pthread_mutex_unlock(&plain);
        CHECK(pthread_cond_destroy(&reused) == 0 && pthread_cond_init(&reused, NULL) == 0);
        join();
    }
    puts("reuse");
}

/* Semaphores */
static sem_t full, empty;
static int passed;

static void *produce(void *number) {
    for (int i = 0; i < 10; i++) {
        sem_wait(&empty);
        passed += (int)(long)number;
        sem_post(&full);
    }
    return NULL;
}

static void test_semaphores(void) {
    int value;
    CHECK(sem_init(&full, 0, 0) == 0 && sem_init(&empty, 0, 1) == 0);
    CHECK(sem_trywait(&full) == -1 && errno == EAGAIN);
    start(produce);
    for (int i = 0; i < 10 * THREADS; i++) {
        CHECK(sem_wait(&full) == 0);
        sem_post(&empty);
    }
    join();
    CHECK(sem_getvalue(&empty, &value) == 0 && value == 1 && passed == 30);
    puts("semaphores");
}

/* Thread-local variables, memory and errno */
static _Thread_local long mine = 5;

static void *use_memory(void *number) {
    char *bytes[8];
    for (int i = 0; i < 8; i++) {
        bytes[i] = malloc(100);
        CHECK(bytes[i] != NULL);
        memset(bytes[i], (int)(long)number, 100);
    }
    mine += (long)number;
    errno = (int)(long)number;
    for (int i = 0; i < 8; i++) {
        CHECK(bytes[i][0] == (long)number && bytes[i][99] == (long)number);
        free(bytes[i]);
    }
    CHECK(mine == 5 + (long)number && errno == (long)number);
    return NULL;
}

static void test_memory(void) {
    errno = 7;
    start(use_memory);
    join();
    CHECK(mine == 5 && errno == 7);
    CHECK(malloc(1ul << 30) == NULL && errno == ENOMEM);
    puts("memory");
}

/* Words and files: --arg one --arg 'two words', --file data=.., --file -=.. */
static void test_files(int words, char **word) {
    char line[32];
    CHECK(words == 3 && strcmp(word[1], "one") == 0 && strcmp(word[2], "two words") == 0 && word[3] == NULL);
    CHECK(sysconf(_SC_NPROCESSORS_ONLN) == 3);
    CHECK(scanf("%31s", line) == 1 && strcmp(line, "first") == 0);
    CHECK(getchar() == '\n' && getchar() == 's');
    FILE *file = fopen("data", "r");
    CHECK(file != NULL && fseek(file, 6, SEEK_SET) == 0);
    CHECK(fgets(line, sizeof line, file) != NULL && strcmp(line, "second\n") == 0);
    CHECK(fgets(line, sizeof line, file) == NULL && feof(file) && fclose(file) == 0);
    CHECK(fopen("absent", "r") == NULL && errno == ENOENT);
    CHECK(open("data", O_WRONLY) == -1 && errno == EROFS);
    CHECK(open("new", O_CREAT | O_WRONLY, 0600) == -1 && errno == EROFS);
    CHECK(read(9, line, 1) == -1 && errno == EBADF);
    fprintf(stderr, "files %5.2f\n", 1.5);
}

int main(int words, char **word) {
    test_threads();
    test_attributes();
    test_mutexes();
    test_conditions();
    test_barriers();
    test_rwlocks();
    test_rest();
    test_cleanups();
    test_reuse();
    test_semaphores();
    test_memory();
    test_files(words, word);
    fputs("the end", stdout);
    return 3;
}
