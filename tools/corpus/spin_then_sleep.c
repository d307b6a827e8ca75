/* A lock that spins a little and then sleeps. Unlock only touches the mutex if somebody sleeps.
 * BROKEN: unlock looks for sleepers without a full fence behind its store. The store waits in the buffer, so the sleeper sees the lock
 * taken and the holder sees no sleeper. */
#include <assert.h>
#include <pthread.h>
#include <stdatomic.h>
#include <stdbool.h>
#include <stddef.h>

#define SPINS 1

typedef struct {
    atomic_bool held;
    atomic_uint sleepers;
    pthread_mutex_t mutex;
    pthread_cond_t free;
} hybrid_lock;

static hybrid_lock lock = { .mutex = PTHREAD_MUTEX_INITIALIZER, .free = PTHREAD_COND_INITIALIZER };
static unsigned long total;

static bool hybrid_try(hybrid_lock *l)
{
    bool no = false;

    return atomic_compare_exchange_strong(&l->held, &no, true);
}

static void hybrid_acquire(hybrid_lock *l)
{
    for (int i = 0; i < SPINS; i++)
        if (hybrid_try(l))
            return;
    pthread_mutex_lock(&l->mutex);
    atomic_fetch_add(&l->sleepers, 1);
    while (!hybrid_try(l))
        pthread_cond_wait(&l->free, &l->mutex);
    atomic_fetch_sub(&l->sleepers, 1);
    pthread_mutex_unlock(&l->mutex);
}

static void hybrid_release(hybrid_lock *l)
{
    atomic_store_explicit(&l->held, false, memory_order_release);
#ifndef BROKEN
    atomic_thread_fence(memory_order_seq_cst);
#endif
    if (atomic_load_explicit(&l->sleepers, memory_order_relaxed)) {
        pthread_mutex_lock(&l->mutex);
        pthread_cond_signal(&l->free);
        pthread_mutex_unlock(&l->mutex);
    }
}

static void *worker(void *arg)
{
    (void)arg;
    hybrid_acquire(&lock);
    total++;
    hybrid_release(&lock);
    return NULL;
}

int main(void)
{
    pthread_t t[2];

    for (int i = 0; i < 2; i++)
        pthread_create(&t[i], NULL, worker, NULL);
    for (int i = 0; i < 2; i++)
        pthread_join(t[i], NULL);
    assert(total == 2);
    return 0;
}
