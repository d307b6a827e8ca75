/* A CLH lock: a thread waits on the node of the one before it, and takes that node over when it leaves.
 * BROKEN: a thread marks its node as locked after it has put it into the queue. The next one finds it free and enters too. */
#include <assert.h>
#include <pthread.h>
#include <stdatomic.h>
#include <stdbool.h>
#include <stddef.h>

typedef struct clh_node {
    atomic_bool locked;
} clh_node_t;

typedef struct {
    clh_node_t dummy;
    _Atomic(clh_node_t *) tail;
} clh_lock_t;

struct self {
    clh_node_t *mine;
    clh_node_t *pred;
};

static clh_lock_t lock = { .tail = &lock.dummy };
static clh_node_t nodes[2];
static atomic_int inside;

static void clh_acquire(clh_lock_t *l, struct self *me)
{
#ifndef BROKEN
    atomic_store_explicit(&me->mine->locked, true, memory_order_relaxed);
#endif
    me->pred = atomic_exchange_explicit(&l->tail, me->mine, memory_order_acq_rel);
#ifdef BROKEN
    atomic_store_explicit(&me->mine->locked, true, memory_order_relaxed);
#endif
    while (atomic_load_explicit(&me->pred->locked, memory_order_acquire))
        ;
}

static void clh_release(struct self *me)
{
    clh_node_t *mine = me->mine;

    me->mine = me->pred;
    atomic_store_explicit(&mine->locked, false, memory_order_release);
}

static void *worker(void *arg)
{
    struct self me = { .mine = arg };

    clh_acquire(&lock, &me);
    int before = atomic_fetch_add_explicit(&inside, 1, memory_order_relaxed);
    assert(before == 0);
    atomic_fetch_sub_explicit(&inside, 1, memory_order_relaxed);
    clh_release(&me);
    return NULL;
}

int main(void)
{
    pthread_t t[2];

    for (int i = 0; i < 2; i++)
        pthread_create(&t[i], NULL, worker, &nodes[i]);
    for (int i = 0; i < 2; i++)
        pthread_join(t[i], NULL);
    return 0;
}
