/* What tools/fromc knows of <pthread.h>. The calls are built in. */
#ifndef FROM_C_PTHREAD_H
#define FROM_C_PTHREAD_H
#include <stddef.h>
#include <sched.h>
typedef unsigned long pthread_t;
typedef struct { int state; } pthread_mutex_t;
typedef struct { int state; } pthread_cond_t;
typedef struct { int state; } pthread_spinlock_t;
typedef struct pthread_attributes pthread_attr_t, pthread_mutexattr_t, pthread_condattr_t, pthread_rwlockattr_t, pthread_barrierattr_t;
#define PTHREAD_MUTEX_INITIALIZER {0}
#define PTHREAD_COND_INITIALIZER {0}
int pthread_create(pthread_t *, const pthread_attr_t *, void *(*)(void *), void *);
int pthread_join(pthread_t, void **);
int pthread_detach(pthread_t);
_Noreturn void pthread_exit(void *);
int pthread_mutex_init(pthread_mutex_t *, const pthread_mutexattr_t *);
int pthread_mutex_destroy(pthread_mutex_t *);
int pthread_mutex_lock(pthread_mutex_t *);
int pthread_mutex_trylock(pthread_mutex_t *);
int pthread_mutex_unlock(pthread_mutex_t *);
int pthread_cond_init(pthread_cond_t *, const pthread_condattr_t *);
int pthread_cond_destroy(pthread_cond_t *);
int pthread_cond_wait(pthread_cond_t *, pthread_mutex_t *);
int pthread_cond_signal(pthread_cond_t *);
int pthread_cond_broadcast(pthread_cond_t *);
int pthread_spin_init(pthread_spinlock_t *, int);
int pthread_spin_destroy(pthread_spinlock_t *);
int pthread_spin_lock(pthread_spinlock_t *);
int pthread_spin_trylock(pthread_spinlock_t *);
int pthread_spin_unlock(pthread_spinlock_t *);
#define PTHREAD_PROCESS_PRIVATE 0
#define PTHREAD_PROCESS_SHARED 1

/* The others are made of a mutex, a condition and numbers, by functions that are translated as those of the file are. */
#define FROM_C_BUSY 16
void from_c_assert(_Bool);

typedef struct {
    pthread_mutex_t guard;
    pthread_cond_t freed;
    int readers;
    _Bool writer;
} pthread_rwlock_t;
#define PTHREAD_RWLOCK_INITIALIZER {{0}}

static inline int pthread_rwlock_init(pthread_rwlock_t *lock, const pthread_rwlockattr_t *attributes)
{
    lock->readers = 0;
    lock->writer = 0;
    return 0;
}

static inline int pthread_rwlock_destroy(pthread_rwlock_t *lock)
{
    return 0;
}

static inline int pthread_rwlock_rdlock(pthread_rwlock_t *lock)
{
    pthread_mutex_lock(&lock->guard);
    while (lock->writer)
        pthread_cond_wait(&lock->freed, &lock->guard);
    lock->readers++;
    pthread_mutex_unlock(&lock->guard);
    return 0;
}

static inline int pthread_rwlock_wrlock(pthread_rwlock_t *lock)
{
    pthread_mutex_lock(&lock->guard);
    while (lock->writer || lock->readers)
        pthread_cond_wait(&lock->freed, &lock->guard);
    lock->writer = 1;
    pthread_mutex_unlock(&lock->guard);
    return 0;
}

static inline int pthread_rwlock_tryrdlock(pthread_rwlock_t *lock)
{
    int result = FROM_C_BUSY;

    pthread_mutex_lock(&lock->guard);
    if (!lock->writer) {
        lock->readers++;
        result = 0;
    }
    pthread_mutex_unlock(&lock->guard);
    return result;
}

static inline int pthread_rwlock_trywrlock(pthread_rwlock_t *lock)
{
    int result = FROM_C_BUSY;

    pthread_mutex_lock(&lock->guard);
    if (!lock->writer && !lock->readers) {
        lock->writer = 1;
        result = 0;
    }
    pthread_mutex_unlock(&lock->guard);
    return result;
}

static inline int pthread_rwlock_unlock(pthread_rwlock_t *lock)
{
    pthread_mutex_lock(&lock->guard);
    from_c_assert(lock->writer || lock->readers);
    if (lock->writer)
        lock->writer = 0;
    else
        lock->readers--;
    pthread_cond_broadcast(&lock->freed);
    pthread_mutex_unlock(&lock->guard);
    return 0;
}

typedef struct {
    _Atomic(_Bool) done;
    pthread_mutex_t guard;
} pthread_once_t;
#define PTHREAD_ONCE_INIT {0}

static inline int pthread_once(pthread_once_t *once, void (*make)(void))
{
    if (!once->done) {
        pthread_mutex_lock(&once->guard);
        if (!once->done) {
            make();
            once->done = 1;
        }
        pthread_mutex_unlock(&once->guard);
    }
    return 0;
}

typedef struct {
    pthread_mutex_t guard;
    pthread_cond_t full;
    unsigned wanted, here, round;
} pthread_barrier_t;
#define PTHREAD_BARRIER_SERIAL_THREAD (-1)

static inline int pthread_barrier_init(pthread_barrier_t *barrier, const pthread_barrierattr_t *attributes, unsigned count)
{
    barrier->wanted = count;
    barrier->here = 0;
    return 0;
}

static inline int pthread_barrier_destroy(pthread_barrier_t *barrier)
{
    return 0;
}

static inline int pthread_barrier_wait(pthread_barrier_t *barrier)
{
    int result = 0;

    pthread_mutex_lock(&barrier->guard);
    barrier->here++;
    if (barrier->here == barrier->wanted) {
        barrier->here = 0;
        barrier->round++;
        pthread_cond_broadcast(&barrier->full);
        result = PTHREAD_BARRIER_SERIAL_THREAD;
    } else {
        unsigned mine = barrier->round;

        while (barrier->round == mine)
            pthread_cond_wait(&barrier->full, &barrier->guard);
    }
    pthread_mutex_unlock(&barrier->guard);
    return result;
}
#endif
