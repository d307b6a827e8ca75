/* A promise that one of several threads fulfils, and a future that is polled without a lock.
 * BROKEN: the state is set to ready by a relaxed store, and the value may come later. */
#include <assert.h>
#include <pthread.h>
#include <sched.h>
#include <stdatomic.h>
#include <stdbool.h>
#include <stddef.h>

enum promise_state { PENDING, SETTING, READY };

struct promise {
    _Atomic(enum promise_state) state;
    int value;
};

static struct promise promise;

static bool promise_set(struct promise *p, int value)
{
    enum promise_state expected = PENDING;

    if (!atomic_compare_exchange_strong(&p->state, &expected, SETTING))
        return false;
    p->value = value;
#ifdef BROKEN
    atomic_store_explicit(&p->state, READY, memory_order_relaxed);
#else
    atomic_store_explicit(&p->state, READY, memory_order_release);
#endif
    return true;
}

static int future_get(struct promise *p)
{
    for (;;) {
        switch (atomic_load_explicit(&p->state, memory_order_acquire)) {
        case READY:
            return p->value;
        case PENDING:
        case SETTING:
            sched_yield();
            break;
        }
    }
}

static void *setter(void *arg)
{
    promise_set(&promise, *(int *)arg);
    return NULL;
}

int main(void)
{
    pthread_t t[2];
    int values[2] = { 5, 6 };

    for (int i = 0; i < 2; i++)
        pthread_create(&t[i], NULL, setter, &values[i]);
    int got = future_get(&promise);
    assert(got == 5 || got == 6);
    for (int i = 0; i < 2; i++)
        pthread_join(t[i], NULL);
    return 0;
}
