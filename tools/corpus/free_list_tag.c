/* A free list of blocks. The blocks are aligned, and the lowest bits of the head's pointer count the pops.
 * BROKEN: a pop doesn't count. While it looks at a block's next, another thread takes two blocks and gives the first one back (ABA). The
 * exchange succeeds, and a block that is in use is in the list again. */
#include <assert.h>
#include <pthread.h>
#include <stdalign.h>
#include <stdatomic.h>
#include <stddef.h>
#include <stdint.h>

#define TAG_MASK ((uintptr_t)15)

struct block {
    alignas(16) _Atomic(struct block *) next;
    atomic_bool in_use;
};
_Static_assert(_Alignof(struct block) == TAG_MASK + 1, "the tag fits below the pointer");

static struct block blocks[2] = { { .next = &blocks[1] } };
static atomic_uintptr_t head;

static inline struct block *block_of(uintptr_t tagged)
{
    return (struct block *)(tagged & ~TAG_MASK);
}

static inline uintptr_t tagged_with(struct block *b, uintptr_t tag)
{
    return (uintptr_t)b | (tag & TAG_MASK);
}

static struct block *block_get(void)
{
    uintptr_t old = atomic_load(&head), new;
    struct block *b;

    do {
        b = block_of(old);
        if (!b)
            return NULL;
#ifdef BROKEN
        new = tagged_with(atomic_load(&b->next), old);
#else
        new = tagged_with(atomic_load(&b->next), old + 1);
#endif
    } while (!atomic_compare_exchange_weak(&head, &old, new));
    assert(!atomic_exchange(&b->in_use, 1));
    return b;
}

static void block_put(struct block *b)
{
    uintptr_t old = atomic_load(&head);

    atomic_store(&b->in_use, 0);
    do {
        atomic_store(&b->next, block_of(old));
    } while (!atomic_compare_exchange_weak(&head, &old, tagged_with(b, old)));
}

static void *taker(void *arg)
{
    (void)arg;
    block_get();
    block_get();
    return NULL;
}

static void *user(void *arg)
{
    struct block *first = block_get();

    (void)arg;
    block_get();
    if (first)
        block_put(first);
    return NULL;
}

int main(void)
{
    pthread_t t, u;

    atomic_store(&head, tagged_with(&blocks[0], 0));
    pthread_create(&t, NULL, taker, NULL);
    pthread_create(&u, NULL, user, NULL);
    pthread_join(t, NULL);
    pthread_join(u, NULL);
    return 0;
}
