/* Reclamation by epochs: a reader enters by storing the epoch that it sees, and the writer frees when the epoch has moved on twice.
 * BROKEN: there is no fence between the reader's store and its load of the pointer. The writer sees no reader and frees what it holds. */
#include <assert.h>
#include <pthread.h>
#include <stdatomic.h>
#include <stddef.h>
#include <stdlib.h>

#define ACTIVE 1u
#define EPOCH_STEP 2u

struct blob {
    long size;
    long bytes;
};

static _Atomic(struct blob *) blob;
static atomic_uint global_epoch;
static struct {
    atomic_uint local;
} slots[1];

static void epoch_enter(int me)
{
    unsigned e = atomic_load_explicit(&global_epoch, memory_order_relaxed);

    atomic_store_explicit(&slots[me].local, e | ACTIVE, memory_order_relaxed);
#ifndef BROKEN
    atomic_thread_fence(memory_order_seq_cst);
#endif
}

static void epoch_leave(int me)
{
    atomic_store_explicit(&slots[me].local, 0, memory_order_release);
}

static void epoch_advance(void)
{
    unsigned e = atomic_load_explicit(&global_epoch, memory_order_relaxed);

    atomic_thread_fence(memory_order_seq_cst);
    for (;;) {
        unsigned local = atomic_load_explicit(&slots[0].local, memory_order_acquire);

        if (!(local & ACTIVE) || local == (e | ACTIVE))
            break;
    }
    atomic_store_explicit(&global_epoch, e + EPOCH_STEP, memory_order_release);
}

static void *reader(void *arg)
{
    int me = *(int *)arg;

    epoch_enter(me);
    struct blob *b = atomic_load_explicit(&blob, memory_order_acquire);
    assert(b->size == b->bytes);
    epoch_leave(me);
    return NULL;
}

int main(void)
{
    static int ids[1] = { 0 };
    struct blob *first = malloc(sizeof(*first)), *second = malloc(sizeof(*second));
    struct blob *old;
    pthread_t r;

    *first = (struct blob){ 10, 10 };
    *second = (struct blob){ 20, 20 };
    atomic_store_explicit(&blob, first, memory_order_relaxed);
    pthread_create(&r, NULL, reader, &ids[0]);

    old = atomic_exchange(&blob, second);
    for (int i = 0; i < 2; i++)
        epoch_advance();
    free(old);

    pthread_join(r, NULL);
    free(second);
    return 0;
}
