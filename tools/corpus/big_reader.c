/* A lock for many readers: each reader has a flag of its own, and the writer goes through all of them.
 * BROKEN: a reader raises its flag and looks for a writer without a full barrier in between. Both pass, and the reader sees
 * half a change. */
#include <assert.h>
#include <pthread.h>
#include <stdalign.h>
#include <stddef.h>

#define READERS 1
#define READ_ONCE(x) __atomic_load_n(&(x), __ATOMIC_RELAXED)
#define WRITE_ONCE(x, v) __atomic_store_n(&(x), (v), __ATOMIC_RELAXED)
#define smp_load_acquire(p) ({ __auto_type v_ = __atomic_load_n((p), __ATOMIC_ACQUIRE); v_; })
#define smp_store_release(p, v) __atomic_store_n((p), (v), __ATOMIC_RELEASE)
#define smp_mb() __sync_synchronize()

struct big_lock {
    int writer;
    struct {
        alignas(64) int reading;
    } slot[READERS];
};

struct range {
    long from, to;
};

static struct big_lock lock;
static struct range range = { 0, 10 };

static void read_lock(struct big_lock *l, int me)
{
    for (;;) {
        WRITE_ONCE(l->slot[me].reading, 1);
#ifndef BROKEN
        smp_mb();
#endif
        if (!smp_load_acquire(&l->writer))
            return;
        smp_store_release(&l->slot[me].reading, 0);
        while (READ_ONCE(l->writer))
            ;
    }
}

static void read_unlock(struct big_lock *l, int me)
{
    smp_store_release(&l->slot[me].reading, 0);
}

static void write_lock(struct big_lock *l)
{
    WRITE_ONCE(l->writer, 1);
    smp_mb();
    for (int i = 0; i < READERS; i++)
        while (smp_load_acquire(&l->slot[i].reading))
            ;
}

static void write_unlock(struct big_lock *l)
{
    smp_store_release(&l->writer, 0);
}

static void *reader(void *arg)
{
    int me = *(int *)arg;
    long from, to;

    read_lock(&lock, me);
    from = READ_ONCE(range.from);
    to = READ_ONCE(range.to);
    read_unlock(&lock, me);
    assert(to - from == 10);
    return NULL;
}

int main(void)
{
    pthread_t t;
    int me = 0;

    pthread_create(&t, NULL, reader, &me);
    write_lock(&lock);
    WRITE_ONCE(range.from, 5);
    WRITE_ONCE(range.to, 15);
    write_unlock(&lock);
    pthread_join(t, NULL);
    return 0;
}
