/* Sleepable read-side sections with a count of entries and one of exits for each of two indices, in the style of SRCU.
 * BROKEN: the reader's entry has no full barrier. Its count waits in the buffer while the writer finds nobody and frees the old value. */
#include <assert.h>
#include <pthread.h>
#include <stddef.h>
#include <stdlib.h>

#define READ_ONCE(x) (*(const volatile typeof(x) *)&(x))
#define WRITE_ONCE(x, v) (*(volatile typeof(x) *)&(x) = (v))
#define smp_mb() __sync_synchronize()

struct srcu {
    unsigned idx;
    unsigned long entries[2], exits[2]; /* written by the one reader */
};

struct policy {
    int allow;
};

static struct srcu srcu;
static struct policy *policy;

static inline unsigned srcu_read_lock(struct srcu *s)
{
    unsigned idx = READ_ONCE(s->idx) & 1;

    WRITE_ONCE(s->entries[idx], s->entries[idx] + 1);
#ifndef BROKEN
    smp_mb();
#endif
    return idx;
}

static inline void srcu_read_unlock(struct srcu *s, unsigned idx)
{
    smp_mb();
    WRITE_ONCE(s->exits[idx], s->exits[idx] + 1);
}

static void wait_until_drained(struct srcu *s, unsigned idx)
{
    unsigned long exits;

    do {
        exits = __atomic_load_n(&s->exits[idx], __ATOMIC_ACQUIRE);
        smp_mb();
    } while (READ_ONCE(s->entries[idx]) != exits);
}

static void synchronize_srcu(struct srcu *s)
{
    smp_mb();
    for (int i = 0; i < 2; i++) {
        unsigned idx = READ_ONCE(s->idx) & 1;

        wait_until_drained(s, !idx);
        WRITE_ONCE(s->idx, !idx);
        smp_mb();
    }
    wait_until_drained(s, !(READ_ONCE(s->idx) & 1));
}

static void *reader(void *arg)
{
    struct srcu *s = arg;
    unsigned idx = srcu_read_lock(s);
    struct policy *p = __atomic_load_n(&policy, __ATOMIC_ACQUIRE);

    assert(p->allow == 1);
    srcu_read_unlock(s, idx);
    return NULL;
}

int main(void)
{
    pthread_t r;
    struct policy *old = malloc(sizeof(*old)), *new = malloc(sizeof(*new));

    old->allow = new->allow = 1;
    policy = old;
    pthread_create(&r, NULL, reader, &srcu);
    __atomic_store_n(&policy, new, __ATOMIC_RELEASE);
    synchronize_srcu(&srcu);
    free(old);
    pthread_join(r, NULL);
    free(new);
    return 0;
}
