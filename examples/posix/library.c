/* What picolibc wants of a system: output, files, memory, the end, and a lock. Errors are told by errno. */

#include <errno.h>
#include <fcntl.h>
#include <pthread.h>
#include <semaphore.h>
#include <signal.h>
#include <stdio.h>
#include <stdlib.h>
#include <string.h>
#include <sys/stat.h>
#include <sys/time.h>
#include <sys/times.h>
#include <unistd.h>

#include "linked.h"
#include "tilesim.h"

static int fail(int error) {
    errno = error;
    return -1;
}

/* Output: what a thread prints goes out by whole lines, so lines of several threads don't mix -------------- */

static _Thread_local struct {
    unsigned length;
    char text[120];
} line;

static void write_all(const char *bytes, size_t count) {
    while (count > 0) {
        long taken = write_bytes(1, bytes, count);
        if (taken <= 0)
            return;
        bytes += taken;
        count -= taken;
    }
}

void output_flush(void) {
    write_all(line.text, line.length);
    line.length = 0;
}

static int output_put(char character, FILE *file) {
    (void)file;
    line.text[line.length++] = character;
    if (character == '\n' || line.length == sizeof line.text)
        output_flush();
    return (unsigned char)character;
}

static int output_fflush(FILE *file) {
    (void)file;
    output_flush();
    return 0;
}

static int input_get(FILE *file) {
    (void)file;
    unsigned char byte;
    return read(0, &byte, 1) == 1 ? byte : _FDEV_EOF;
}

static FILE input = FDEV_SETUP_STREAM(NULL, input_get, NULL, _FDEV_SETUP_READ);
static FILE output = FDEV_SETUP_STREAM(output_put, NULL, output_fflush, _FDEV_SETUP_WRITE);
FILE *const stdin = &input;
FILE *const stdout = &output;
FILE *const stderr = &output;

ssize_t write(int descriptor, const void *bytes, size_t count) {
    if (descriptor != 1 && descriptor != 2)
        return fail(EBADF);
    output_flush();
    long taken = write_bytes(descriptor, bytes, count);
    return taken < 0 ? fail((int)-taken) : taken;
}

/* Files: those that were linked in can be read ---------------------------------------------------------------- */

#define MOST_OPEN 32

static struct {
    const struct linked_file *file; /* none: the descriptor is free */
    size_t place;
} opened[MOST_OPEN];

static pthread_mutex_t files_lock = PTHREAD_MUTEX_INITIALIZER;

static const struct linked_file *file_of(const char *name) {
    for (size_t i = 0; i < linked_file_count; i++)
        if (strcmp(linked_files[i].name, name) == 0)
            return &linked_files[i];
    return NULL;
}

/* The file of a descriptor. Descriptor 0 is the standard input, an empty one where none was linked in. */
static const struct linked_file *file_at(int descriptor) {
    static const struct linked_file nothing = {"-", NULL, 0};
    if (descriptor < 0 || descriptor >= MOST_OPEN)
        return NULL;
    if (descriptor == 0 && opened[0].file == NULL) {
        const struct linked_file *found = file_of("-");
        opened[0].file = found ? found : &nothing;
    }
    return opened[descriptor].file;
}

int open(const char *name, int flags, ...) {
    const struct linked_file *file = file_of(name);
    if (file == NULL)
        return fail(flags & O_CREAT ? EROFS : ENOENT);
    if ((flags & O_ACCMODE) != O_RDONLY)
        return fail(EROFS);
    int descriptor = 3;
    pthread_mutex_lock(&files_lock);
    while (descriptor < MOST_OPEN && opened[descriptor].file != NULL)
        descriptor++;
    if (descriptor < MOST_OPEN) {
        opened[descriptor].file = file;
        opened[descriptor].place = 0;
    }
    pthread_mutex_unlock(&files_lock);
    return descriptor < MOST_OPEN ? descriptor : fail(EMFILE);
}

int close(int descriptor) {
    pthread_mutex_lock(&files_lock);
    bool is_open = descriptor >= 3 && file_at(descriptor) != NULL;
    if (is_open)
        opened[descriptor].file = NULL;
    pthread_mutex_unlock(&files_lock);
    return is_open || (descriptor >= 0 && descriptor < 3) ? 0 : fail(EBADF);
}

ssize_t read(int descriptor, void *bytes, size_t count) {
    pthread_mutex_lock(&files_lock);
    const struct linked_file *file = file_at(descriptor);
    if (file != NULL) {
        size_t place = opened[descriptor].place;
        size_t rest = place < file->size ? file->size - place : 0;
        count = count < rest ? count : rest;
        if (count > 0)
            memcpy(bytes, file->bytes + place, count);
        opened[descriptor].place = place + count;
    }
    pthread_mutex_unlock(&files_lock);
    return file != NULL ? (ssize_t)count : fail(EBADF);
}

off_t lseek(int descriptor, off_t offset, int whence) {
    off_t place = -1;
    pthread_mutex_lock(&files_lock);
    const struct linked_file *file = file_at(descriptor);
    if (file != NULL) {
        off_t from = whence == SEEK_SET ? 0 : whence == SEEK_CUR ? (off_t)opened[descriptor].place : (off_t)file->size;
        place = from + offset;
        if (place >= 0)
            opened[descriptor].place = (size_t)place;
    }
    pthread_mutex_unlock(&files_lock);
    if (file == NULL)
        return fail(descriptor >= 0 && descriptor < 3 ? ESPIPE : EBADF);
    return place >= 0 ? place : fail(EINVAL);
}

int fstat(int descriptor, struct stat *about) {
    const struct linked_file *file = file_at(descriptor);
    memset(about, 0, sizeof *about);
    if (file == NULL && descriptor != 1 && descriptor != 2)
        return fail(EBADF);
    about->st_mode = file ? S_IFREG | 0444 : S_IFCHR | 0222;
    about->st_size = file ? (off_t)file->size : 0;
    return 0;
}

int stat(const char *name, struct stat *about) {
    const struct linked_file *file = file_of(name);
    if (file == NULL)
        return fail(ENOENT);
    memset(about, 0, sizeof *about);
    about->st_mode = S_IFREG | 0444;
    about->st_size = (off_t)file->size;
    return 0;
}

int isatty(int descriptor) {
    (void)descriptor;
    return fail(ENOTTY), 0;
}

int unlink(const char *name) { return fail(file_of(name) ? EROFS : ENOENT); }

/* Memory ------------------------------------------------------------------------------------------------------- */

void *sbrk(ptrdiff_t more) {
    char *now = set_break(NULL);
    if (more == 0)
        return now;
    if ((char *)set_break(now + more) != now + more)
        return errno = ENOMEM, (void *)-1;
    return now;
}

/* The library's one lock, around malloc and the like; recursive ------------------------------------------------- */

struct __lock {
    pthread_mutex_t mutex;
};
struct __lock __lock___libc_recursive_mutex = {PTHREAD_RECURSIVE_MUTEX_INITIALIZER_NP};

/* Locks that the library makes for itself, one for each open stream, are this one too. */
void __retarget_lock_init(struct __lock **lock) { *lock = &__lock___libc_recursive_mutex; }
void __retarget_lock_init_recursive(struct __lock **lock) { *lock = &__lock___libc_recursive_mutex; }
void __retarget_lock_close(struct __lock *lock) { (void)lock; }
void __retarget_lock_close_recursive(struct __lock *lock) { (void)lock; }
void __retarget_lock_acquire(struct __lock *lock) { pthread_mutex_lock(&lock->mutex); }
void __retarget_lock_acquire_recursive(struct __lock *lock) { pthread_mutex_lock(&lock->mutex); }
int __retarget_lock_try_acquire(struct __lock *lock) { return pthread_mutex_trylock(&lock->mutex) == 0; }
int __retarget_lock_try_acquire_recursive(struct __lock *lock) { return pthread_mutex_trylock(&lock->mutex) == 0; }
void __retarget_lock_release(struct __lock *lock) { pthread_mutex_unlock(&lock->mutex); }
void __retarget_lock_release_recursive(struct __lock *lock) { pthread_mutex_unlock(&lock->mutex); }

/* The rest ----------------------------------------------------------------------------------------------------- */

long sysconf(int name) {
    switch (name) {
    case _SC_NPROCESSORS_CONF:
    case _SC_NPROCESSORS_ONLN:
        return linked_threads;
    case _SC_PAGESIZE:
    case _SC_THREAD_STACK_MIN:
        return 4096;
    case _SC_THREAD_KEYS_MAX:
        return PTHREAD_KEYS_MAX;
    case _SC_THREAD_DESTRUCTOR_ITERATIONS:
        return PTHREAD_DESTRUCTOR_ITERATIONS;
    case _SC_THREAD_THREADS_MAX:
        return 64;
    case _SC_SEM_VALUE_MAX:
        return SEM_VALUE_MAX;
    case _SC_OPEN_MAX:
        return MOST_OPEN;
    }
    return fail(EINVAL);
}

int sched_yield(void) {
    thread_yield();
    return 0;
}

pid_t getpid(void) { return 1; }

/* There are no signals: one that is sent ends the program, with the status that a shell shows for it. */
int kill(pid_t process, int number) {
    (void)process;
    output_flush();
    program_exit(128 + number);
}

/* No call tells the time. */
clock_t times(struct tms *found) {
    memset(found, 0, sizeof *found);
    return fail(ENOSYS);
}

int gettimeofday(struct timeval *restrict found, void *restrict zone) {
    (void)zone;
    memset(found, 0, sizeof *found);
    return fail(ENOSYS);
}

void _exit(int code) {
    output_flush();
    program_exit(code);
}

extern void (*constructors_start[])(void), (*constructors_end[])(void);
int main(int count, char **words, char **environment);

void program_begin(void) {
    static char *no_environment[] = {NULL};
    threads_begin();
    for (void (**one)(void) = constructors_start; one < constructors_end; one++)
        (*one)();
    exit(main(linked_word_count, linked_words, no_environment));
}
