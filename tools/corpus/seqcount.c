/* A sequence count around a time stamp of two halves, as a clock page has it.
 * BROKEN: there is no write barrier behind the first increment. The new seconds may be in memory while the count is still even. */
#include <assert.h>
#include <pthread.h>
#include <stdint.h>
#include <stddef.h>

#define READ_ONCE(x) __atomic_load_n(&(x), __ATOMIC_RELAXED)
#define WRITE_ONCE(x, v) __atomic_store_n(&(x), (v), __ATOMIC_RELAXED)
#define smp_rmb() __atomic_thread_fence(__ATOMIC_ACQUIRE)
#define smp_wmb() __atomic_thread_fence(__ATOMIC_RELEASE)
#define cpu_relax() ((void)0)

typedef struct seqcount {
    unsigned sequence;
} seqcount_t;

struct clock {
    seqcount_t seq;
    uint32_t seconds;
    uint32_t nanos;
};

static struct clock page;

static inline __attribute__((always_inline)) unsigned read_seqbegin(const seqcount_t *s)
{
    unsigned start;

    while ((start = READ_ONCE(s->sequence)) & 1)
        cpu_relax();
    smp_rmb();
    return start;
}

static inline __attribute__((always_inline)) int read_seqretry(const seqcount_t *s, unsigned start)
{
    smp_rmb();
    return READ_ONCE(s->sequence) != start;
}

static inline void write_seqbegin(seqcount_t *s)
{
    WRITE_ONCE(s->sequence, s->sequence + 1);
#ifndef BROKEN
    smp_wmb();
#endif
}

static inline void write_seqend(seqcount_t *s)
{
    smp_wmb();
    WRITE_ONCE(s->sequence, s->sequence + 1);
}

static void *tick(void *arg)
{
    struct clock *c = arg;

    write_seqbegin(&c->seq);
    WRITE_ONCE(c->seconds, c->seconds + 1);
    WRITE_ONCE(c->nanos, c->nanos + 7);
    write_seqend(&c->seq);
    return NULL;
}

int main(void)
{
    pthread_t t;
    unsigned start;
    uint32_t seconds, nanos;

    pthread_create(&t, NULL, tick, &page);
    do {
        start = read_seqbegin(&page.seq);
        seconds = READ_ONCE(page.seconds);
        nanos = READ_ONCE(page.nanos);
    } while (read_seqretry(&page.seq, start));
    assert(nanos == seconds * 7);
    pthread_join(t, NULL);
    return 0;
}
