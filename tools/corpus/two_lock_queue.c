/* A queue with a lock for each end. The two ends meet at the dummy node, whose next is the one word that has no lock.
 * BROKEN: the node is linked by a relaxed store, so that the consumer may find it before its number is there. */
#include <assert.h>
#include <pthread.h>
#include <stdatomic.h>
#include <stdbool.h>
#include <stddef.h>
#include <stdlib.h>

#ifdef BROKEN
#define LINK memory_order_relaxed
#else
#define LINK memory_order_release
#endif

struct qnode {
    _Atomic(struct qnode *) next;
    unsigned number;
};

struct queue {
    pthread_spinlock_t head_lock, tail_lock;
    struct qnode *head, *tail;
    unsigned last_number; /* under the tail's lock */
};

static struct queue q;

static struct qnode *new_node(void)
{
    struct qnode *n = calloc(1, sizeof(struct qnode));

    assert(n != NULL);
    return n;
}

static void queue_init(struct queue *it)
{
    it->head = it->tail = new_node();
    pthread_spin_init(&it->head_lock, PTHREAD_PROCESS_PRIVATE);
    pthread_spin_init(&it->tail_lock, PTHREAD_PROCESS_PRIVATE);
}

static void enqueue(struct queue *it)
{
    struct qnode *n = new_node();

    pthread_spin_lock(&it->tail_lock);
    n->number = ++it->last_number;
    atomic_store_explicit(&it->tail->next, n, LINK);
    it->tail = n;
    pthread_spin_unlock(&it->tail_lock);
}

static bool dequeue(struct queue *it, unsigned *number)
{
    struct qnode *old, *first;

    pthread_spin_lock(&it->head_lock);
    old = it->head;
    first = atomic_load_explicit(&old->next, memory_order_acquire);
    if (!first) {
        pthread_spin_unlock(&it->head_lock);
        return false;
    }
    *number = first->number;
    it->head = first;
    pthread_spin_unlock(&it->head_lock);
    free(old);
    return true;
}

static void *producer(void *arg)
{
    enqueue(arg);
    return NULL;
}

static void *consumer(void *arg)
{
    unsigned number;

    if (dequeue(arg, &number))
        assert(number == 1);
    return NULL;
}

int main(void)
{
    pthread_t p, c;

    queue_init(&q);
    pthread_create(&p, NULL, producer, &q);
    pthread_create(&c, NULL, consumer, &q);
    pthread_join(p, NULL);
    pthread_join(c, NULL);
    for (struct qnode *n = q.head, *next; n; n = next) {
        next = n->next;
        free(n);
    }
    return 0;
}
