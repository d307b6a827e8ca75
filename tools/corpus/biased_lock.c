/* A lock that is biased to one thread, which takes it by a flag and no exchange until another thread revokes the bias.
 * BROKEN: the owner's flag and its look at the revocation have no full barrier in between. Owner and revoker are both inside. */
#include <assert.h>
#include <pthread.h>
#include <stdatomic.h>
#include <stdbool.h>
#include <stddef.h>

struct biased {
    atomic_bool owner_inside;
    atomic_bool revoked;
    pthread_mutex_t slow;
};

static struct biased lock = { .slow = PTHREAD_MUTEX_INITIALIZER };
static long hits;

static bool owner_enter(struct biased *b)
{
    atomic_store_explicit(&b->owner_inside, true, memory_order_relaxed);
#ifndef BROKEN
    atomic_thread_fence(memory_order_seq_cst);
#endif
    if (__builtin_expect(!atomic_load_explicit(&b->revoked, memory_order_acquire), 1))
        return true;
    atomic_store_explicit(&b->owner_inside, false, memory_order_release);
    pthread_mutex_lock(&b->slow);
    return false;
}

static void owner_leave(struct biased *b, bool is_fast)
{
    if (is_fast)
        atomic_store_explicit(&b->owner_inside, false, memory_order_release);
    else
        pthread_mutex_unlock(&b->slow);
}

static void revoke_and_enter(struct biased *b)
{
    pthread_mutex_lock(&b->slow);
    atomic_store_explicit(&b->revoked, true, memory_order_relaxed);
    atomic_thread_fence(memory_order_seq_cst);
    while (atomic_load_explicit(&b->owner_inside, memory_order_acquire))
        ;
}

static void *owner(void *arg)
{
    struct biased *b = arg;

    bool is_fast = owner_enter(b);
    hits++;
    owner_leave(b, is_fast);
    return NULL;
}

int main(void)
{
    pthread_t o;

    pthread_create(&o, NULL, owner, &lock);
    revoke_and_enter(&lock);
    hits++;
    pthread_mutex_unlock(&lock.slow);
    pthread_join(o, NULL);
    assert(hits == 2);
    return 0;
}
