/* The queue of Michael and Scott by indexes, node 1 the first dummy. A node is linked by a relaxed exchange of a plain store, so that the
 * one who takes it may find its value missing. */
#include <assert.h>
#include <pthread.h>
#include <stdatomic.h>
#include <stddef.h>

static atomic_int head = 1, tail = 1;
static atomic_int next[4];
static int value[4];

static void enqueue(int node, int what)
{
    atomic_store_explicit(&next[node], 0, memory_order_relaxed);
    for (;;) {
        int last = atomic_load_explicit(&tail, memory_order_acquire);
        int behind = atomic_load_explicit(&next[last], memory_order_acquire);

        if (behind == 0) {
            value[node] = what;
#ifdef MENDED
            int none = 0;

            if (atomic_compare_exchange_strong(&next[last], &none, node)) {
                atomic_compare_exchange_strong(&tail, &last, node);
                return;
            }
#else
            atomic_store_explicit(&next[last], node, memory_order_relaxed);
            atomic_store_explicit(&tail, node, memory_order_relaxed);
            return;
#endif
        } else {
            atomic_compare_exchange_strong(&tail, &last, behind);
        }
    }
}

static int dequeue(void)
{
    int first = atomic_load_explicit(&head, memory_order_acquire);
    int behind = atomic_load_explicit(&next[first], memory_order_acquire);

    if (behind == 0)
        return 0;
    int what = value[behind];
    if (!atomic_compare_exchange_strong(&head, &first, behind))
        return 0;
    assert(what != 0);
    return what;
}

static void *producer(void *unused)
{
    enqueue(2, 5);
    return NULL;
}

static void *consumer(void *unused)
{
    dequeue();
    return NULL;
}

int main(void)
{
    pthread_t p, c;

    pthread_create(&p, NULL, producer, NULL);
    pthread_create(&c, NULL, consumer, NULL);
    pthread_join(p, NULL);
    pthread_join(c, NULL);
    return 0;
}
