/* An arena of nodes that are given out one after another and freed all at once.
 * BROKEN: the place is read and written in two steps, and two threads get the same node. */
#include <assert.h>
#include <pthread.h>
#include <stdatomic.h>
#include <stddef.h>

#define ARENA_NODES 4

struct anode {
    int owner;
    struct anode *child;
};

struct arena {
    atomic_size_t used;
    struct anode nodes[ARENA_NODES];
};

static struct arena arena;

static struct anode *arena_alloc(struct arena *a, size_t count)
{
#ifdef BROKEN
    size_t at = atomic_load_explicit(&a->used, memory_order_relaxed);

    atomic_store_explicit(&a->used, at + count, memory_order_relaxed);
#else
    size_t at = atomic_fetch_add_explicit(&a->used, count, memory_order_relaxed);
#endif
    return at + count <= ARENA_NODES ? a->nodes + at : NULL;
}

static void *builder(void *arg)
{
    int me = (int)(size_t)arg;
    struct anode *pair = arena_alloc(&arena, 2);

    assert(pair != NULL);
    pair[0].owner = me;
    pair[1].owner = me;
    pair->child = &pair[1];
    assert(pair->owner == me && pair->child->owner == me);
    return NULL;
}

int main(void)
{
    pthread_t t[2];

    for (size_t i = 0; i < 2; i++)
        pthread_create(&t[i], NULL, builder, (void *)(i + 1));
    for (size_t i = 0; i < 2; i++)
        pthread_join(t[i], NULL);
    assert(arena.used == 4);
    return 0;
}
