/* A topic keeps its latest sample and the sample's number, which a subscriber polls.
 * BROKEN: the number is stored without release, and a subscriber that sees it still gets the sample before. */
#include <assert.h>
#include <pthread.h>
#include <stdatomic.h>
#include <stddef.h>
#include <stdint.h>

#ifdef BROKEN
#define ANNOUNCE memory_order_relaxed
#else
#define ANNOUNCE memory_order_release
#endif

struct sample {
    uint64_t number;
    int32_t value;
};

struct topic {
    _Atomic(const struct sample *) latest;
    atomic_ulong number;
};

static const struct sample samples[2] = { { .number = 1, .value = -3 }, { .number = 2, .value = 8 } };
static struct topic topic;

static void publish(struct topic *t, const struct sample *s)
{
    atomic_store_explicit(&t->latest, s, memory_order_relaxed);
    atomic_store_explicit(&t->number, s->number, ANNOUNCE);
}

static const struct sample *poll(struct topic *t, unsigned long *last)
{
    unsigned long number = atomic_load_explicit(&t->number, memory_order_acquire);

    if (number == *last)
        return NULL;
    *last = number;
    return atomic_load_explicit(&t->latest, memory_order_relaxed);
}

static void *publisher(void *arg)
{
    for (int i = 0; i < 2; i++)
        publish(arg, &samples[i]);
    return NULL;
}

int main(void)
{
    pthread_t p;
    unsigned long last = 0;

    pthread_create(&p, NULL, publisher, &topic);
    const struct sample *s = poll(&topic, &last);
    if (last != 0) {
        assert(s != NULL);
        assert(s->number >= last);
    }
    pthread_join(p, NULL);
    return 0;
}
