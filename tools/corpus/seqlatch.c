/* A latch: two copies of a pair, and the lowest bit of the count says which one readers use while the other is written.
 * BROKEN: the copy is chosen by the count after the increment, so that the writer changes the copy that readers use. */
#include <assert.h>
#include <pthread.h>
#include <stdatomic.h>
#include <stddef.h>

struct pair {
    _Atomic long a, b;
};

struct latch {
    atomic_uint seq;
    struct pair copy[2];
};

static struct latch latch = { .copy = { [0] = { 1, 1 }, [1] = { 1, 1 } } };

static void write_copy(struct pair *p, long value)
{
    atomic_store_explicit(&p->a, value, memory_order_relaxed);
    atomic_store_explicit(&p->b, value, memory_order_relaxed);
}

static void latch_update(struct latch *l, long value)
{
    for (int i = 0; i < 2; i++) {
        unsigned seq = atomic_load_explicit(&l->seq, memory_order_relaxed) + 1;

        atomic_thread_fence(memory_order_release);
        atomic_store_explicit(&l->seq, seq, memory_order_relaxed);
        atomic_thread_fence(memory_order_release);
#ifdef BROKEN
        write_copy(&l->copy[seq & 1], value);
#else
        write_copy(&l->copy[(seq & 1) ^ 1], value);
#endif
    }
}

static void latch_read(struct latch *l, long *a, long *b)
{
    unsigned seq;
    struct pair *p;

    do {
        seq = atomic_load_explicit(&l->seq, memory_order_acquire);
        p = &l->copy[seq & 1];
        *a = atomic_load_explicit(&p->a, memory_order_relaxed);
        *b = atomic_load_explicit(&p->b, memory_order_relaxed);
        atomic_thread_fence(memory_order_acquire);
    } while (seq != atomic_load_explicit(&l->seq, memory_order_relaxed));
}

static void *updater(void *arg)
{
    (void)arg;
    latch_update(&latch, 2);
    return NULL;
}

int main(void)
{
    pthread_t u;
    long a, b;

    pthread_create(&u, NULL, updater, NULL);
    latch_read(&latch, &a, &b);
    assert(a == b);
    pthread_join(u, NULL);
    return 0;
}
