/* A latch that opens when its count comes to 0; only the last one touches the mutex.
 * BROKEN: the last one broadcasts without the mutex. The waiter has seen a count of 1 and isn't asleep yet, and nobody wakes it. */
#include <assert.h>
#include <pthread.h>
#include <stdatomic.h>
#include <stddef.h>

struct countdown {
    atomic_long count;
    pthread_mutex_t lock;
    pthread_cond_t open;
};

static struct countdown ready = { .count = 2, .lock = PTHREAD_MUTEX_INITIALIZER, .open = PTHREAD_COND_INITIALIZER };
static int parts[2];

static void count_down(struct countdown *c)
{
    if (atomic_fetch_sub_explicit(&c->count, 1, memory_order_acq_rel) != 1)
        return;
#ifdef BROKEN
    pthread_cond_broadcast(&c->open);
#else
    pthread_mutex_lock(&c->lock);
    pthread_cond_broadcast(&c->open);
    pthread_mutex_unlock(&c->lock);
#endif
}

static void await(struct countdown *c)
{
    if (atomic_load_explicit(&c->count, memory_order_acquire) == 0)
        return;
    pthread_mutex_lock(&c->lock);
    while (atomic_load_explicit(&c->count, memory_order_acquire) > 0)
        pthread_cond_wait(&c->open, &c->lock);
    pthread_mutex_unlock(&c->lock);
}

static void *builder(void *arg)
{
    int *part = arg;

    *part = 1;
    count_down(&ready);
    return NULL;
}

int main(void)
{
    pthread_t t[2];

    for (int i = 0; i < 2; i++)
        pthread_create(&t[i], NULL, builder, &parts[i]);
    await(&ready);
    assert(parts[0] + parts[1] == 2);
    for (int i = 0; i < 2; i++)
        pthread_join(t[i], NULL);
    return 0;
}
