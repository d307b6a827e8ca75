/* The queue lock of Mellor-Crummey and Scott, its nodes by index, 0 for none. The lock is handed on by a relaxed store. */
#include <assert.h>
#include <pthread.h>
#include <stdatomic.h>
#include <stddef.h>
#include <stdint.h>

#ifdef MENDED
#define HAND_ON memory_order_release
#else
#define HAND_ON memory_order_relaxed
#endif

static atomic_int tail;
static atomic_int next[3];
static atomic_bool waits[3];
static int sum;

static void acquire(int me)
{
    atomic_store_explicit(&next[me], 0, memory_order_relaxed);
    atomic_store_explicit(&waits[me], 1, memory_order_relaxed);
    int before = atomic_exchange_explicit(&tail, me, memory_order_acq_rel);
    if (before == 0)
        return;
    atomic_store_explicit(&next[before], me, memory_order_release);
    while (atomic_load_explicit(&waits[me], memory_order_acquire))
        ;
}

static void release(int me)
{
    int behind = atomic_load_explicit(&next[me], memory_order_acquire);

    if (behind == 0) {
        int expected = me;

        if (atomic_compare_exchange_strong_explicit(&tail, &expected, 0, memory_order_release, memory_order_relaxed))
            return;
        while ((behind = atomic_load_explicit(&next[me], memory_order_acquire)) == 0)
            ;
    }
    atomic_store_explicit(&waits[behind], 0, HAND_ON);
}

static void *add(void *which)
{
    int me = (int)(intptr_t)which;

    acquire(me);
    sum++;
    release(me);
    return NULL;
}

int main(void)
{
    pthread_t a, b;

    pthread_create(&a, NULL, add, (void *)(intptr_t)1);
    pthread_create(&b, NULL, add, (void *)(intptr_t)2);
    pthread_join(a, NULL);
    pthread_join(b, NULL);
    assert(sum == 2);
    return 0;
}
