/* A list of waiters, each allocated and freed by the thread that waits.
 * BROKEN: the waker wakes a waiter and then takes the next one from it. The waiter has gone on and freed itself. */
#include <assert.h>
#include <pthread.h>
#include <sched.h>
#include <stdbool.h>
#include <stddef.h>
#include <stdlib.h>

#define container_of(ptr, type, member) ({                 \
    typeof(((type *)0)->member) *member_ = (ptr);          \
    (type *)((char *)member_ - offsetof(type, member)); })

struct link {
    struct link *next;
};

struct waiter {
    bool woken;
    struct link link;
};

struct wait_queue {
    pthread_mutex_t lock;
    struct link *first;
    bool fired;
};

static struct wait_queue queue = { .lock = PTHREAD_MUTEX_INITIALIZER };

static void wait_for_event(struct wait_queue *q)
{
    struct waiter *w = malloc(sizeof(*w));

    w->woken = false;
    pthread_mutex_lock(&q->lock);
    if (q->fired) {
        __atomic_store_n(&w->woken, true, __ATOMIC_RELAXED);
    } else {
        w->link.next = q->first;
        q->first = &w->link;
    }
    pthread_mutex_unlock(&q->lock);
    while (!__atomic_load_n(&w->woken, __ATOMIC_ACQUIRE))
        sched_yield();
    free(w);
}

static void wake_all(struct wait_queue *q)
{
    struct link *it, *next;

    pthread_mutex_lock(&q->lock);
    it = q->first;
    q->first = NULL;
    q->fired = true;
    pthread_mutex_unlock(&q->lock);
    for (; it; it = next) {
        struct waiter *w = container_of(it, struct waiter, link);

#ifdef BROKEN
        __atomic_store_n(&w->woken, true, __ATOMIC_RELEASE);
        next = it->next;
#else
        next = it->next;
        __atomic_store_n(&w->woken, true, __ATOMIC_RELEASE);
#endif
    }
}

static void *wait_once(void *arg)
{
    wait_for_event(arg);
    return NULL;
}

int main(void)
{
    pthread_t t[2];

    for (int i = 0; i < 2; i++)
        pthread_create(&t[i], NULL, wait_once, &queue);
    wake_all(&queue);
    for (int i = 0; i < 2; i++)
        pthread_join(t[i], NULL);
    assert(queue.first == NULL);
    return 0;
}
