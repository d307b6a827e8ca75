/* A timer in a slot of a wheel, with a function to call. Its owner cancels it and frees it.
 * BROKEN: cancel takes the timer out of the slot, but doesn't wait until its function has ended. The function uses freed memory. */
#include <assert.h>
#include <pthread.h>
#include <stddef.h>
#include <stdint.h>
#include <stdlib.h>

enum timer_state { TIMER_IDLE, TIMER_PENDING, TIMER_RUNNING };

struct timer {
    uint8_t state;
    void (*function)(struct timer *);
    unsigned long fired;
};

struct slot {
    pthread_spinlock_t lock;
    struct timer *timer;
};

static struct slot wheel[1];

static void count_up(struct timer *t)
{
    t->fired++;
}

static void *expire(void *arg)
{
    struct slot *s = arg;
    struct timer *t;

    pthread_spin_lock(&s->lock);
    t = s->timer;
    if (t) {
        s->timer = NULL;
        __atomic_store_n(&t->state, TIMER_RUNNING, __ATOMIC_RELAXED);
    }
    pthread_spin_unlock(&s->lock);
    if (!t)
        return NULL;
    t->function(t);
    assert(t->fired == 1);
    __atomic_store_n(&t->state, TIMER_IDLE, __ATOMIC_RELEASE);
    return NULL;
}

static void cancel(struct slot *s, struct timer *t)
{
    pthread_spin_lock(&s->lock);
    if (s->timer == t) {
        s->timer = NULL;
        __atomic_store_n(&t->state, TIMER_IDLE, __ATOMIC_RELAXED);
    }
    pthread_spin_unlock(&s->lock);
#ifndef BROKEN
    while (__atomic_load_n(&t->state, __ATOMIC_ACQUIRE) == TIMER_RUNNING)
        ;
#endif
}

int main(void)
{
    pthread_t e;
    struct timer *t = malloc(sizeof(*t));

    pthread_spin_init(&wheel[0].lock, PTHREAD_PROCESS_PRIVATE);
    t->state = TIMER_PENDING;
    t->function = count_up;
    t->fired = 0;
    wheel[0].timer = t;
    pthread_create(&e, NULL, expire, &wheel[0]);
    cancel(&wheel[0], t);
    free(t);
    pthread_join(e, NULL);
    return 0;
}
