/* Lamport's ring for one producer and one consumer. The producer publishes its slot by a relaxed store. */
#include <assert.h>
#include <pthread.h>
#include <stdatomic.h>
#include <stdbool.h>
#include <stddef.h>

#define SIZE 2u

#ifdef MENDED
#define PUBLISH memory_order_release
#else
#define PUBLISH memory_order_relaxed
#endif

static int slot[SIZE];
static atomic_uint written, taken;

static bool put(int what)
{
    unsigned w = atomic_load_explicit(&written, memory_order_relaxed);

    if (w - atomic_load_explicit(&taken, memory_order_acquire) >= SIZE)
        return false;
    slot[w % SIZE] = what;
    atomic_store_explicit(&written, w + 1, PUBLISH);
    return true;
}

static bool get(int *what)
{
    unsigned t = atomic_load_explicit(&taken, memory_order_relaxed);

    if (t == atomic_load_explicit(&written, memory_order_acquire))
        return false;
    *what = slot[t % SIZE];
    atomic_store_explicit(&taken, t + 1, memory_order_release);
    return true;
}

static void *producer(void *unused)
{
    put(8);
    put(9);
    return NULL;
}

static void *consumer(void *unused)
{
    int what;

    if (get(&what))
        assert(what == 8);
    return NULL;
}

int main(void)
{
    pthread_t p, c;

    pthread_create(&p, NULL, producer, NULL);
    pthread_create(&c, NULL, consumer, NULL);
    pthread_join(p, NULL);
    pthread_join(c, NULL);
    return 0;
}
