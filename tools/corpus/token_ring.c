/* A token goes round, and its holder may change the count.
 * BROKEN: the token is passed on by a relaxed store, which may reach memory before the new count. */
#include <assert.h>
#include <pthread.h>
#include <sched.h>
#include <stdatomic.h>
#include <stddef.h>

#define STATIONS 3

#ifdef BROKEN
#define PASS memory_order_relaxed
#else
#define PASS memory_order_release
#endif

struct station {
    atomic_bool has_token;
    struct station *next;
};

static struct station stations[STATIONS] = {
    { .has_token = 1, .next = &stations[1] },
    { .next = &stations[2] },
    { .next = &stations[0] },
};
static short count;

static void take_turn(struct station *s)
{
    while (!atomic_load_explicit(&s->has_token, memory_order_acquire))
        sched_yield();
    atomic_store_explicit(&s->has_token, 0, memory_order_relaxed);
    count++;
    atomic_store_explicit(&s->next->has_token, 1, PASS);
}

static void *run(void *arg)
{
    take_turn(arg);
    return NULL;
}

int main(void)
{
    pthread_t t[STATIONS - 1];

    for (int i = 1; i < STATIONS; i++)
        pthread_create(&t[i - 1], NULL, run, &stations[i]);
    take_turn(&stations[0]);
    for (int i = 1; i < STATIONS; i++)
        pthread_join(t[i - 1], NULL);
    assert(count == STATIONS);
    assert(atomic_load(&stations[0].has_token));
    return 0;
}
