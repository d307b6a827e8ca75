/* Dekker's lock with a fence in the wrong place: behind the look at the other's flag, where it is too late. */
#include <assert.h>
#include <pthread.h>
#include <stdatomic.h>
#include <stddef.h>
#include <stdint.h>

static atomic_int wants[2], turn;
static int inside;

static void raise_flag(int me)
{
    atomic_store_explicit(&wants[me], 1, memory_order_relaxed);
#ifdef MENDED
    atomic_thread_fence(memory_order_seq_cst);
#endif
}

static void enter(int me)
{
    raise_flag(me);
    while (atomic_load_explicit(&wants[1 - me], memory_order_relaxed)) {
        if (atomic_load_explicit(&turn, memory_order_relaxed) != me) {
            atomic_store_explicit(&wants[me], 0, memory_order_relaxed);
            while (atomic_load_explicit(&turn, memory_order_relaxed) != me)
                ;
            raise_flag(me);
        }
    }
    atomic_thread_fence(memory_order_seq_cst);
}

static void leave(int me)
{
    atomic_thread_fence(memory_order_release);
    atomic_store_explicit(&turn, 1 - me, memory_order_relaxed);
    atomic_store_explicit(&wants[me], 0, memory_order_relaxed);
}

static void *worker(void *which)
{
    int me = (int)(intptr_t)which;

    enter(me);
    inside++;
    assert(inside == 1);
    inside--;
    leave(me);
    return NULL;
}

int main(void)
{
    pthread_t t[2];

    for (int i = 0; i < 2; i++)
        pthread_create(&t[i], NULL, worker, (void *)(intptr_t)i);
    for (int i = 0; i < 2; i++)
        pthread_join(t[i], NULL);
    return 0;
}
