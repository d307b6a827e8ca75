/* What tools/fromc knows of <semaphore.h>: made of a mutex, a condition and a number. */
#ifndef FROM_C_SEMAPHORE_H
#define FROM_C_SEMAPHORE_H
#include <pthread.h>

typedef struct {
    pthread_mutex_t guard;
    pthread_cond_t more;
    unsigned count;
} sem_t;

static inline int sem_init(sem_t *semaphore, int between_processes, unsigned count)
{
    semaphore->count = count;
    return 0;
}

static inline int sem_destroy(sem_t *semaphore)
{
    return 0;
}

static inline int sem_wait(sem_t *semaphore)
{
    pthread_mutex_lock(&semaphore->guard);
    while (semaphore->count == 0)
        pthread_cond_wait(&semaphore->more, &semaphore->guard);
    semaphore->count--;
    pthread_mutex_unlock(&semaphore->guard);
    return 0;
}

static inline int sem_trywait(sem_t *semaphore)
{
    int result = -1;

    pthread_mutex_lock(&semaphore->guard);
    if (semaphore->count != 0) {
        semaphore->count--;
        result = 0;
    }
    pthread_mutex_unlock(&semaphore->guard);
    return result;
}

static inline int sem_post(sem_t *semaphore)
{
    pthread_mutex_lock(&semaphore->guard);
    semaphore->count++;
    pthread_cond_signal(&semaphore->more);
    pthread_mutex_unlock(&semaphore->guard);
    return 0;
}

static inline int sem_getvalue(sem_t *semaphore, int *value)
{
    pthread_mutex_lock(&semaphore->guard);
    *value = (int)semaphore->count;
    pthread_mutex_unlock(&semaphore->guard);
    return 0;
}
#endif
