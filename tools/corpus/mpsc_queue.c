/* An intrusive queue of many producers and one consumer; a message has its link inside.
 * BROKEN: push clears the node's link after it has put the node into the queue. Another producer has linked its node there,
 * and it is lost. */
#include <assert.h>
#include <pthread.h>
#include <stdatomic.h>
#include <stddef.h>

#define container_of(ptr, type, member) ((type *)((char *)(ptr) - offsetof(type, member)))

struct mpsc_node {
    _Atomic(struct mpsc_node *) next;
};

struct mpsc {
    _Atomic(struct mpsc_node *) head;
    struct mpsc_node *tail;
    struct mpsc_node stub;
};

struct message {
    int number;
    struct mpsc_node node;
};

static struct mpsc queue = { .head = &queue.stub, .tail = &queue.stub };
static struct message messages[2] = { { .number = 1 }, { .number = 2 } };

static void mpsc_push(struct mpsc *q, struct mpsc_node *n)
{
    struct mpsc_node *prev;

#ifdef BROKEN
    prev = atomic_exchange_explicit(&q->head, n, memory_order_acq_rel);
    atomic_store_explicit(&n->next, NULL, memory_order_relaxed);
#else
    atomic_store_explicit(&n->next, NULL, memory_order_relaxed);
    prev = atomic_exchange_explicit(&q->head, n, memory_order_acq_rel);
#endif
    atomic_store_explicit(&prev->next, n, memory_order_release);
}

static struct mpsc_node *mpsc_pop(struct mpsc *q)
{
    struct mpsc_node *tail = q->tail;
    struct mpsc_node *next = atomic_load_explicit(&tail->next, memory_order_acquire);

    if (tail == &q->stub) {
        if (!next)
            return NULL;
        q->tail = tail = next;
        next = atomic_load_explicit(&tail->next, memory_order_acquire);
    }
    if (!next) {
        if (tail != atomic_load_explicit(&q->head, memory_order_acquire))
            return NULL;
        mpsc_push(q, &q->stub);
        next = atomic_load_explicit(&tail->next, memory_order_acquire);
        if (!next)
            return NULL;
    }
    q->tail = next;
    return tail;
}

static void *producer(void *arg)
{
    struct message *m = arg;

    mpsc_push(&queue, &m->node);
    return NULL;
}

int main(void)
{
    pthread_t t[2];
    struct mpsc_node *n;
    int sum = 0;

    for (int i = 0; i < 2; i++)
        pthread_create(&t[i], NULL, producer, &messages[i]);
    for (int i = 0; i < 2; i++)
        pthread_join(t[i], NULL);
    while ((n = mpsc_pop(&queue)))
        sum += container_of(n, struct message, node)->number;
    assert(sum == 3);
    return 0;
}
