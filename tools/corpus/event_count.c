/* An event count: a waiter announces itself, tests its condition again, and then sleeps until the epoch changes.
 * BROKEN: the notifier looks for waiters without a full fence behind its store. The store waits in the buffer, the notifier sees no waiter,
 * the waiter sees no item, and sleeps for ever. */
#include <assert.h>
#include <pthread.h>
#include <stdatomic.h>
#include <stddef.h>

struct event_count {
    atomic_uint waiters;
    unsigned epoch; /* under the mutex */
    pthread_mutex_t mutex;
    pthread_cond_t changed;
};

static struct event_count ec = { .mutex = PTHREAD_MUTEX_INITIALIZER, .changed = PTHREAD_COND_INITIALIZER };
static atomic_int items;

static unsigned ec_prepare(struct event_count *e)
{
    unsigned key;

    atomic_fetch_add(&e->waiters, 1);
    pthread_mutex_lock(&e->mutex);
    key = e->epoch;
    pthread_mutex_unlock(&e->mutex);
    return key;
}

static void ec_cancel(struct event_count *e)
{
    atomic_fetch_sub(&e->waiters, 1);
}

static void ec_commit(struct event_count *e, unsigned key)
{
    pthread_mutex_lock(&e->mutex);
    while (e->epoch == key)
        pthread_cond_wait(&e->changed, &e->mutex);
    pthread_mutex_unlock(&e->mutex);
    atomic_fetch_sub(&e->waiters, 1);
}

static void ec_notify(struct event_count *e)
{
#ifndef BROKEN
    atomic_thread_fence(memory_order_seq_cst);
#endif
    if (__builtin_expect(atomic_load_explicit(&e->waiters, memory_order_relaxed) == 0, 1))
        return;
    pthread_mutex_lock(&e->mutex);
    e->epoch++;
    pthread_cond_broadcast(&e->changed);
    pthread_mutex_unlock(&e->mutex);
}

static void *consumer(void *arg)
{
    (void)arg;
    while (!atomic_load(&items)) {
        unsigned key = ec_prepare(&ec);

        if (atomic_load(&items))
            ec_cancel(&ec);
        else
            ec_commit(&ec, key);
    }
    assert(atomic_fetch_sub(&items, 1) == 1);
    return NULL;
}

int main(void)
{
    pthread_t c;

    pthread_create(&c, NULL, consumer, NULL);
    atomic_store_explicit(&items, 1, memory_order_release);
    ec_notify(&ec);
    pthread_join(c, NULL);
    return 0;
}
