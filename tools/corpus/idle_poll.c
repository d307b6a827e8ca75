/* An idle processor polls a flag for a while, and then sleeps until it is kicked. Who sets the flag only kicks it if it doesn't poll.
 * BROKEN: the end of the polling may wait in the store buffer when the flag is read the last time. Nobody kicks, and it sleeps for ever. */
#include <assert.h>
#include <pthread.h>
#include <semaphore.h>
#include <stdbool.h>
#include <stddef.h>

#define READ_ONCE(x) __atomic_load_n(&(x), __ATOMIC_RELAXED)
#define WRITE_ONCE(x, v) __atomic_store_n(&(x), (v), __ATOMIC_RELAXED)
#define smp_mb() __sync_synchronize()

struct cpu {
    bool polling;
    bool need_resched;
    sem_t kick;
    int slept;
};

static struct cpu cpu = { .polling = true };

static void *idle(void *arg)
{
    struct cpu *c = arg;

    for (int spins = 0; spins < 1; spins++)
        if (READ_ONCE(c->need_resched))
            goto out;
    WRITE_ONCE(c->polling, false);
#ifndef BROKEN
    smp_mb();
#endif
    if (READ_ONCE(c->need_resched))
        goto out;
    sem_wait(&c->kick);
    c->slept = 1;
    assert(READ_ONCE(c->need_resched));
out:
    return NULL;
}

static void resched(struct cpu *c)
{
    WRITE_ONCE(c->need_resched, true);
    smp_mb();
    if (!READ_ONCE(c->polling))
        sem_post(&c->kick);
}

int main(void)
{
    pthread_t t;

    sem_init(&cpu.kick, 0, 0);
    pthread_create(&t, NULL, idle, &cpu);
    resched(&cpu);
    pthread_join(t, NULL);
    sem_destroy(&cpu.kick);
    return 0;
}
