/* Dekker's algorithm with its turn, by relaxed accesses and full barriers.
 * BROKEN: the barrier between a thread's own flag and its look at the other one's is missing, and both enter. */
#include <assert.h>
#include <pthread.h>
#include <stddef.h>
#include <stdint.h>

#define READ_ONCE(x) __atomic_load_n(&(x), __ATOMIC_RELAXED)
#define WRITE_ONCE(x, v) __atomic_store_n(&(x), (v), __ATOMIC_RELAXED)
#ifdef BROKEN
#define smp_mb() __atomic_signal_fence(__ATOMIC_SEQ_CST)
#else
#define smp_mb() __atomic_thread_fence(__ATOMIC_SEQ_CST)
#endif

struct side {
    uint8_t wants;
    struct side *other;
    int id;
};

static struct side sides[2] = {
    [0] = { .other = &sides[1], .id = 0 },
    [1] = { .other = &sides[0], .id = 1 },
};
static int turn;
static int inside;

static void enter(struct side *s)
{
    WRITE_ONCE(s->wants, 1);
    smp_mb();
    while (__atomic_load_n(&s->other->wants, __ATOMIC_ACQUIRE)) {
        if (READ_ONCE(turn) == s->id)
            continue;
        WRITE_ONCE(s->wants, 0);
        while (READ_ONCE(turn) != s->id)
            ;
        WRITE_ONCE(s->wants, 1);
        smp_mb();
    }
}

static void leave(struct side *s)
{
    WRITE_ONCE(turn, s->other->id);
    __atomic_store_n(&s->wants, 0, __ATOMIC_RELEASE);
}

static void *process(void *arg)
{
    struct side *s = arg;

    enter(s);
    WRITE_ONCE(inside, s->id + 1);
    assert(READ_ONCE(inside) == s->id + 1);
    leave(s);
    return NULL;
}

int main(void)
{
    pthread_t t[2];

    for (int i = 0; i < 2; i++)
        pthread_create(&t[i], NULL, process, &sides[i]);
    for (int i = 0; i < 2; i++)
        pthread_join(t[i], NULL);
    return 0;
}
