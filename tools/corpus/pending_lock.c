/* The first waiter of a queue spin lock waits on a pending bit beside the lock bit; a thread may take a free lock past it.
 * BROKEN: the waiter sees the lock bit clear and takes the lock by a plain store, which also clears the pending bit. Another thread has
 * taken the lock in between, and both are inside. */
#include <assert.h>
#include <pthread.h>
#include <stdbool.h>
#include <stdint.h>
#include <stddef.h>

#define Q_LOCKED 1u
#define Q_PENDING 2u

struct qlock {
    uint32_t val;
};

struct job {
    long by;
    int times;
};

static struct qlock lock;
static long shared_sum;

static inline __attribute__((always_inline)) bool q_trylock(struct qlock *l)
{
    uint32_t val = __atomic_load_n(&l->val, __ATOMIC_RELAXED);

    do {
        if (val & Q_LOCKED)
            return false;
    } while (!__atomic_compare_exchange_n(&l->val, &val, val | Q_LOCKED, true, __ATOMIC_ACQUIRE, __ATOMIC_RELAXED));
    return true;
}

static void q_lock(struct qlock *l)
{
    uint32_t val;

    if (__builtin_expect(q_trylock(l), 1))
        return;
    /* One thread has the pending bit. */
    while (__atomic_fetch_or(&l->val, Q_PENDING, __ATOMIC_RELAXED) & Q_PENDING)
        ;
    do {
        while ((val = __atomic_load_n(&l->val, __ATOMIC_ACQUIRE)) & Q_LOCKED)
            ;
#ifdef BROKEN
        __atomic_store_n(&l->val, Q_LOCKED, __ATOMIC_RELAXED);
        break;
#endif
    } while (!__atomic_compare_exchange_n(&l->val, &val, Q_LOCKED, true, __ATOMIC_ACQUIRE, __ATOMIC_RELAXED));
}

static void q_unlock(struct qlock *l)
{
    __atomic_fetch_and(&l->val, ~Q_LOCKED, __ATOMIC_RELEASE);
}

static void *adder(void *arg)
{
    const struct job *j = arg;

    for (int i = 0; i < j->times; i++) {
        q_lock(&lock);
        shared_sum += j->by;
        q_unlock(&lock);
    }
    return NULL;
}

int main(void)
{
    static struct job jobs[2] = { { .by = 3, .times = 2 }, { .by = 4, .times = 1 } };
    pthread_t t[2];

    for (size_t i = 0; i < 2; i++)
        pthread_create(&t[i], NULL, adder, &jobs[i]);
    for (size_t i = 0; i < 2; i++)
        pthread_join(t[i], NULL);
    assert(shared_sum == 10);
    assert(lock.val == 0);
    return 0;
}
