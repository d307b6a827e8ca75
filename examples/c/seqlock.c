/* A sequence lock whose writer orders nothing: the sequence may be even again before both halves are written. */
#include <assert.h>
#include <pthread.h>
#include <stdatomic.h>
#include <stddef.h>

#ifdef MENDED
#define DONE memory_order_release
#define BEGUN() atomic_thread_fence(memory_order_release)
#else
#define DONE memory_order_relaxed
#define BEGUN()
#endif

static atomic_uint sequence;
static atomic_int half[2];

static void *writer(void *unused)
{
    atomic_store_explicit(&sequence, 1, memory_order_relaxed);
    BEGUN();
    atomic_store_explicit(&half[0], 7, memory_order_relaxed);
    atomic_store_explicit(&half[1], 7, memory_order_relaxed);
    atomic_store_explicit(&sequence, 2, DONE);
    return NULL;
}

static void *reader(void *unused)
{
    for (int tries = 0; tries < 2; tries++) {
        unsigned before = atomic_load_explicit(&sequence, memory_order_acquire);
        int a = atomic_load_explicit(&half[0], memory_order_relaxed);
        int b = atomic_load_explicit(&half[1], memory_order_relaxed);
        atomic_thread_fence(memory_order_acquire);
        if (before % 2 == 0 && atomic_load_explicit(&sequence, memory_order_relaxed) == before) {
            assert(a == b);
            break;
        }
    }
    return NULL;
}

int main(void)
{
    pthread_t w, r;

    pthread_create(&w, NULL, writer, NULL);
    pthread_create(&r, NULL, reader, NULL);
    pthread_join(w, NULL);
    pthread_join(r, NULL);
    return 0;
}
