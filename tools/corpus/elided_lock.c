/* A lock with a version: a reader first reads without the lock, and takes it only if the version was odd or has changed.
 * BROKEN: unlock stores the new version relaxed. A reader finds it even and unchanged, but some of the data is still the old one. */
#include <assert.h>
#include <pthread.h>
#include <stdatomic.h>
#include <stddef.h>
#include <stdint.h>

#ifdef BROKEN
#define UNLOCK memory_order_relaxed
#else
#define UNLOCK memory_order_release
#endif

struct interval {
    _Atomic int32_t low, high;
};

static struct {
    atomic_uint version; /* odd: locked */
    struct interval interval;
} shared = { .interval = { 10, 20 } };

static unsigned lock_version(void)
{
    unsigned v;

    do {
        v = atomic_load_explicit(&shared.version, memory_order_relaxed) & ~1u;
    } while (!atomic_compare_exchange_weak_explicit(&shared.version, &v, v + 1, memory_order_acquire, memory_order_relaxed));
    atomic_thread_fence(memory_order_release);
    return v;
}

static void unlock_version(unsigned v)
{
    atomic_store_explicit(&shared.version, v, UNLOCK);
}

static int32_t length(void)
{
    unsigned v = atomic_load_explicit(&shared.version, memory_order_acquire);
    int32_t low, high;

    low = atomic_load_explicit(&shared.interval.low, memory_order_relaxed);
    high = atomic_load_explicit(&shared.interval.high, memory_order_relaxed);
    atomic_thread_fence(memory_order_acquire);
    if (!(v & 1) && v == atomic_load_explicit(&shared.version, memory_order_relaxed))
        return high - low;

    v = lock_version();
    low = atomic_load_explicit(&shared.interval.low, memory_order_relaxed);
    high = atomic_load_explicit(&shared.interval.high, memory_order_relaxed);
    unlock_version(v);
    return high - low;
}

static void *mover(void *arg)
{
    int32_t by = *(int32_t *)arg;
    unsigned v = lock_version();

    atomic_store_explicit(&shared.interval.low, 10 + by, memory_order_relaxed);
    atomic_store_explicit(&shared.interval.high, 20 + by, memory_order_relaxed);
    unlock_version(v + 2);
    return NULL;
}

int main(void)
{
    pthread_t m;
    int32_t by = 5;

    pthread_create(&m, NULL, mover, &by);
    assert(length() == 10);
    pthread_join(m, NULL);
    return 0;
}
