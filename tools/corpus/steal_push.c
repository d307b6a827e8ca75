/* A work-stealing deque of task pointers: the owner pushes and takes at the bottom, a thief steals at the top.
 * BROKEN: push raises the bottom without a release fence. The thief sees the new bottom, but not the task in its slot. */
#include <assert.h>
#include <pthread.h>
#include <stdatomic.h>
#include <stddef.h>
#include <stdint.h>

#define SLOTS 4

struct task {
    int argument;
    atomic_int runs;
};

struct deque {
    _Atomic(int64_t) top, bottom;
    _Atomic(struct task *) slots[SLOTS];
};

static struct deque work;
static struct task tasks[2] = { { .argument = 1 }, { .argument = 2 } };

static void deque_push(struct deque *d, struct task *t)
{
    int64_t b = atomic_load_explicit(&d->bottom, memory_order_relaxed);

    atomic_store_explicit(&d->slots[b % SLOTS], t, memory_order_relaxed);
#ifndef BROKEN
    atomic_thread_fence(memory_order_release);
#endif
    atomic_store_explicit(&d->bottom, b + 1, memory_order_relaxed);
}

static struct task *deque_take(struct deque *d)
{
    int64_t b = atomic_load_explicit(&d->bottom, memory_order_relaxed) - 1;
    struct task *t = NULL;

    atomic_store_explicit(&d->bottom, b, memory_order_relaxed);
    atomic_thread_fence(memory_order_seq_cst);
    int64_t top = atomic_load_explicit(&d->top, memory_order_relaxed);
    if (top <= b) {
        t = atomic_load_explicit(&d->slots[b % SLOTS], memory_order_relaxed);
        if (top == b) {
            if (!atomic_compare_exchange_strong_explicit(&d->top, &top, top + 1, memory_order_seq_cst, memory_order_relaxed))
                t = NULL;
            atomic_store_explicit(&d->bottom, b + 1, memory_order_relaxed);
        }
    } else {
        atomic_store_explicit(&d->bottom, b + 1, memory_order_relaxed);
    }
    return t;
}

static struct task *deque_steal(struct deque *d)
{
    int64_t top = atomic_load_explicit(&d->top, memory_order_acquire);

    atomic_thread_fence(memory_order_seq_cst);
    int64_t b = atomic_load_explicit(&d->bottom, memory_order_acquire);
    if (top >= b)
        return NULL;
    struct task *t = atomic_load_explicit(&d->slots[top % SLOTS], memory_order_relaxed);
    if (!atomic_compare_exchange_strong_explicit(&d->top, &top, top + 1, memory_order_seq_cst, memory_order_relaxed))
        return NULL;
    assert(t != NULL);
    return t;
}

static void run(struct task *t)
{
    int before = atomic_fetch_add_explicit(&t->runs, 1, memory_order_relaxed);

    assert(before == 0 && t->argument > 0);
}

static void *thief(void *arg)
{
    struct task *t = deque_steal(arg);

    if (t)
        run(t);
    return NULL;
}

int main(void)
{
    pthread_t t;
    struct task *mine;

    pthread_create(&t, NULL, thief, &work);
    deque_push(&work, &tasks[0]);
    deque_push(&work, &tasks[1]);
    mine = deque_take(&work);
    if (mine)
        run(mine);
    pthread_join(t, NULL);
    return 0;
}
