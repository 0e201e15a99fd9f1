/* POSIX semaphores for tilesim, those without a name. */

#ifndef SEMAPHORE_H
#define SEMAPHORE_H

#include <pthread.h>

typedef struct {
    _Atomic uint32_t value;
    _Atomic uint32_t waiting;
} sem_t;

#define SEM_VALUE_MAX 0x7fffffff

int sem_init(sem_t *semaphore, int shared, unsigned value);
int sem_destroy(sem_t *semaphore);
int sem_wait(sem_t *semaphore);
int sem_trywait(sem_t *semaphore);
int sem_post(sem_t *semaphore);
int sem_getvalue(sem_t *semaphore, int *value);
int sem_timedwait(sem_t *semaphore, const struct timespec *until)
    PTHREAD_REFUSED("there is no clock: wait without a time-out");

#endif
