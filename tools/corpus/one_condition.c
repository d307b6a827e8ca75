/* A slot for one item whose "empty" and "full" waiters share one condition.
 * BROKEN: put and get signal one waiter instead of all. A consumer's signal wakes the other consumer, which finds nothing and sleeps again,
 * and the producer sleeps for ever. */
#include <assert.h>
#include <pthread.h>
#include <stdbool.h>
#include <stddef.h>

struct slot {
    pthread_mutex_t lock;
    pthread_cond_t changed;
    bool full;
    int item;
};

static struct slot slot = { .lock = PTHREAD_MUTEX_INITIALIZER, .changed = PTHREAD_COND_INITIALIZER };

static void wake(struct slot *s)
{
#ifdef BROKEN
    pthread_cond_signal(&s->changed);
#else
    pthread_cond_broadcast(&s->changed);
#endif
}

static void slot_put(struct slot *s, int item)
{
    pthread_mutex_lock(&s->lock);
    while (s->full)
        pthread_cond_wait(&s->changed, &s->lock);
    s->item = item;
    s->full = true;
    wake(s);
    pthread_mutex_unlock(&s->lock);
}

static int slot_get(struct slot *s)
{
    int item;

    pthread_mutex_lock(&s->lock);
    while (!s->full)
        pthread_cond_wait(&s->changed, &s->lock);
    item = s->item;
    s->full = false;
    wake(s);
    pthread_mutex_unlock(&s->lock);
    return item;
}

static void *consumer(void *arg)
{
    int *got = arg;

    *got = slot_get(&slot);
    return NULL;
}

int main(void)
{
    pthread_t c[2];
    int got[2] = { 0, 0 };

    for (int i = 0; i < 2; i++)
        pthread_create(&c[i], NULL, consumer, &got[i]);
    slot_put(&slot, 1);
    slot_put(&slot, 2);
    for (int i = 0; i < 2; i++)
        pthread_join(c[i], NULL);
    assert(got[0] + got[1] == 3);
    return 0;
}
