/* Lamport's ring for one producer and one consumer, with indices that only grow.
 * BROKEN: the test for a full ring is off by one. The producer overwrites a slot that the consumer hasn't read, and 3 comes before 1. */
#include <assert.h>
#include <pthread.h>
#include <sched.h>
#include <stdalign.h>
#include <stdatomic.h>
#include <stdbool.h>
#include <stddef.h>
#include <stdint.h>

#define likely(x) __builtin_expect(!!(x), 1)
#define unlikely(x) __builtin_expect(!!(x), 0)

enum { SLOTS = 2, ITEMS = 3 };

typedef struct {
    uint8_t slots[SLOTS];
    alignas(64) _Atomic(uint32_t) head;
    alignas(64) _Atomic(uint32_t) tail;
} spsc_ring;

static spsc_ring ring;

static inline bool ring_push(spsc_ring *r, uint8_t value)
{
    uint32_t tail = atomic_load_explicit(&r->tail, memory_order_relaxed);
    uint32_t head = atomic_load_explicit(&r->head, memory_order_acquire);

#ifdef BROKEN
    if (unlikely(tail - head > SLOTS))
        return false;
#else
    if (unlikely(tail - head >= SLOTS))
        return false;
#endif
    r->slots[tail % SLOTS] = value;
    atomic_store_explicit(&r->tail, tail + 1, memory_order_release);
    return true;
}

static inline bool ring_pop(spsc_ring *r, uint8_t *value)
{
    uint32_t head = atomic_load_explicit(&r->head, memory_order_relaxed);

    if (unlikely(head == atomic_load_explicit(&r->tail, memory_order_acquire)))
        return false;
    *value = r->slots[head % SLOTS];
    atomic_store_explicit(&r->head, head + 1, memory_order_release);
    return true;
}

static void *producer(void *arg)
{
    spsc_ring *r = arg;

    for (uint8_t i = 1; i <= ITEMS; i++)
        while (!ring_push(r, i))
            sched_yield();
    return NULL;
}

int main(void)
{
    pthread_t p;
    uint8_t value;

    pthread_create(&p, NULL, producer, &ring);
    for (int want = 1; want <= 2; want++) {
        while (!ring_pop(&ring, &value))
            sched_yield();
        assert(value == want);
    }
    pthread_join(p, NULL);
    return 0;
}
