/* An MCS lock with a node on the stack of each thread that waits.
 * BROKEN: unlock hands the lock on by a plain WRITE_ONCE, without a barrier. The next holder may read the old count. */
#include <assert.h>
#include <pthread.h>
#include <stddef.h>

#define WRITE_ONCE(x, v) __atomic_store_n(&(x), (v), __ATOMIC_RELAXED)
#define smp_load_acquire(p) ({ typeof(*(p)) v_ = __atomic_load_n((p), __ATOMIC_ACQUIRE); v_; })
#define smp_store_release(p, v) __atomic_store_n((p), (v), __ATOMIC_RELEASE)
#define cmpxchg_release(p, old, new) ({                                                            \
    typeof(*(p)) seen_ = (old);                                                                    \
    __atomic_compare_exchange_n((p), &seen_, (new), 0, __ATOMIC_RELEASE, __ATOMIC_RELAXED);        \
    seen_; })

struct mcs_node {
    struct mcs_node *next;
    int locked;
};

struct mcs_lock {
    struct mcs_node *tail;
};

static struct mcs_lock lock;
static int count;

static void mcs_acquire(struct mcs_lock *l, struct mcs_node *me)
{
    struct mcs_node *prev;

    WRITE_ONCE(me->next, NULL);
    WRITE_ONCE(me->locked, 1);
    prev = __atomic_exchange_n(&l->tail, me, __ATOMIC_ACQ_REL);
    if (!prev)
        return;
    smp_store_release(&prev->next, me);
    while (smp_load_acquire(&me->locked))
        ;
}

static void mcs_release(struct mcs_lock *l, struct mcs_node *me)
{
    struct mcs_node *next = smp_load_acquire(&me->next);

    if (!next) {
        if (cmpxchg_release(&l->tail, me, NULL) == me)
            return;
        while (!(next = smp_load_acquire(&me->next)))
            ;
    }
#ifdef BROKEN
    WRITE_ONCE(next->locked, 0);
#else
    smp_store_release(&next->locked, 0);
#endif
}

static void *worker(void *arg)
{
    struct mcs_lock *l = arg;
    struct mcs_node me;

    mcs_acquire(l, &me);
    count++;
    mcs_release(l, &me);
    return NULL;
}

int main(void)
{
    pthread_t a, b;

    pthread_create(&a, NULL, worker, &lock);
    pthread_create(&b, NULL, worker, &lock);
    pthread_join(a, NULL);
    pthread_join(b, NULL);
    assert(count == 2);
    assert(!lock.tail);
    return 0;
}
