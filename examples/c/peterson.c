/* Peterson's lock with release and acquire, which is too weak: a store may wait while the other's flag is read. */
#include <assert.h>
#include <pthread.h>
#include <stdatomic.h>
#include <stddef.h>
#include <stdint.h>

#ifdef MENDED
#define STORE memory_order_seq_cst
#else
#define STORE memory_order_release
#endif

static atomic_int wants[2], turn;
static int inside;

static void enter(int me)
{
    int other = 1 - me;

    atomic_store_explicit(&wants[me], 1, STORE);
    atomic_store_explicit(&turn, other, STORE);
    while (atomic_load_explicit(&wants[other], memory_order_acquire) &&
           atomic_load_explicit(&turn, memory_order_acquire) == other)
        ;
}

static void leave(int me)
{
    atomic_store_explicit(&wants[me], 0, memory_order_release);
}

static void *worker(void *which)
{
    int me = (int)(intptr_t)which;

    enter(me);
    inside++;
    assert(inside == 1);
    inside--;
    leave(me);
    return NULL;
}

int main(void)
{
    pthread_t t[2];

    for (int i = 0; i < 2; i++)
        pthread_create(&t[i], NULL, worker, (void *)(intptr_t)i);
    for (int i = 0; i < 2; i++)
        pthread_join(t[i], NULL);
    return 0;
}
