/* A waiter says that it will sleep and looks once more for work; the other leaves work and looks for sleepers. Each store may wait in its
 * buffer while the look is done, and then the waiter sleeps beside its work. */
#include <assert.h>
#include <pthread.h>
#include <stdatomic.h>
#include <stdbool.h>
#include <stddef.h>

#ifdef MENDED
#define FENCE() atomic_thread_fence(memory_order_seq_cst)
#else
#define FENCE()
#endif

static atomic_bool sleeps, work;
static bool went_to_sleep, was_woken;

static void *waiter(void *unused)
{
    atomic_store_explicit(&sleeps, true, memory_order_relaxed);
    FENCE();
    if (!atomic_load_explicit(&work, memory_order_acquire))
        went_to_sleep = true;
    return NULL;
}

static void *giver(void *unused)
{
    atomic_store_explicit(&work, true, memory_order_release);
    FENCE();
    if (atomic_load_explicit(&sleeps, memory_order_relaxed))
        was_woken = true;
    return NULL;
}

int main(void)
{
    pthread_t w, g;

    pthread_create(&w, NULL, waiter, NULL);
    pthread_create(&g, NULL, giver, NULL);
    pthread_join(w, NULL);
    pthread_join(g, NULL);
    assert(!went_to_sleep || was_woken);
    return 0;
}
