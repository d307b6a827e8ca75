/* A bounded queue for many producers and consumers. The sequence number of a cell says whose turn it is.
 * BROKEN: a producer stores the cell's new number relaxed. The number may reach memory before the data, and the consumer takes 0. */
#include <assert.h>
#include <pthread.h>
#include <stdalign.h>
#include <stdatomic.h>
#include <stdbool.h>
#include <stddef.h>
#include <stdint.h>

#define CELLS 2
#define MASK (CELLS - 1)
_Static_assert((CELLS & MASK) == 0, "CELLS is a power of two");

#ifdef BROKEN
#define PUBLISH memory_order_relaxed
#else
#define PUBLISH memory_order_release
#endif

struct cell {
    atomic_size_t sequence;
    int data;
};

struct mpmc {
    struct cell cells[CELLS];
    alignas(64) atomic_size_t enqueue_pos;
    alignas(64) atomic_size_t dequeue_pos;
};

static struct mpmc queue = { .cells = { { .sequence = 0 }, { .sequence = 1 } } };

static bool enqueue(struct mpmc *q, int data)
{
    struct cell *cell;
    size_t pos = atomic_load_explicit(&q->enqueue_pos, memory_order_relaxed);

    for (;;) {
        cell = &q->cells[pos & MASK];
        size_t seq = atomic_load_explicit(&cell->sequence, memory_order_acquire);
        intptr_t diff = (intptr_t)seq - (intptr_t)pos;

        if (diff == 0) {
            if (atomic_compare_exchange_weak_explicit(&q->enqueue_pos, &pos, pos + 1, memory_order_relaxed, memory_order_relaxed))
                break;
        } else if (diff < 0) {
            return false;
        } else {
            pos = atomic_load_explicit(&q->enqueue_pos, memory_order_relaxed);
        }
    }
    cell->data = data;
    atomic_store_explicit(&cell->sequence, pos + 1, PUBLISH);
    return true;
}

static bool dequeue(struct mpmc *q, int *data)
{
    struct cell *cell;
    size_t pos = atomic_load_explicit(&q->dequeue_pos, memory_order_relaxed);

    for (;;) {
        cell = &q->cells[pos & MASK];
        size_t seq = atomic_load_explicit(&cell->sequence, memory_order_acquire);
        intptr_t diff = (intptr_t)seq - (intptr_t)(pos + 1);

        if (diff == 0) {
            if (atomic_compare_exchange_weak_explicit(&q->dequeue_pos, &pos, pos + 1, memory_order_relaxed, memory_order_relaxed))
                break;
        } else if (diff < 0) {
            return false;
        } else {
            pos = atomic_load_explicit(&q->dequeue_pos, memory_order_relaxed);
        }
    }
    *data = cell->data;
    atomic_store_explicit(&cell->sequence, pos + MASK + 1, memory_order_release);
    return true;
}

static void *producer(void *arg)
{
    bool done = enqueue(&queue, (int)(intptr_t)arg);

    assert(done);
    return NULL;
}

int main(void)
{
    pthread_t p[2];
    int data;

    for (intptr_t i = 0; i < 2; i++)
        pthread_create(&p[i], NULL, producer, (void *)(i + 1));
    if (dequeue(&queue, &data))
        assert(data == 1 || data == 2);
    for (int i = 0; i < 2; i++)
        pthread_join(p[i], NULL);
    return 0;
}
