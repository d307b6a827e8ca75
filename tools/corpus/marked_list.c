/* A list whose links carry a mark in their lowest bit: a marked node is being removed, and nothing can be inserted behind it.
 * BROKEN: remove unlinks the node without the mark. Another thread inserts behind it at that moment, and its node is lost. */
#include <assert.h>
#include <pthread.h>
#include <stdatomic.h>
#include <stdbool.h>
#include <stddef.h>
#include <stdint.h>

#define MARK ((uintptr_t)1)

struct mnode {
    atomic_uintptr_t next;
    int key;
};
_Static_assert(_Alignof(struct mnode) >= 2, "the lowest bit of a link is free");

static struct mnode head, victim = { .key = 1 }, fresh = { .key = 2 };

static struct mnode *pointer_of(uintptr_t link)
{
    return (struct mnode *)(link & ~MARK);
}

static bool insert_after(struct mnode *pred, struct mnode *n)
{
    uintptr_t link = atomic_load(&pred->next);

    if (link & MARK)
        return false;
    atomic_store_explicit(&n->next, link, memory_order_relaxed);
    return atomic_compare_exchange_strong(&pred->next, &link, (uintptr_t)n);
}

static void append(struct mnode *n)
{
    struct mnode *last;

    do {
        struct mnode *next;

        last = &head;
        while ((next = pointer_of(atomic_load(&last->next))))
            last = next;
    } while (!insert_after(last, n));
}

static void remove_first(void)
{
    uintptr_t first = (uintptr_t)&victim, next;

#ifdef BROKEN
    next = atomic_load(&victim.next);
#else
    next = atomic_fetch_or(&victim.next, MARK);
#endif
    atomic_compare_exchange_strong(&head.next, &first, next);
}

static void *appender(void *arg)
{
    append(arg);
    return NULL;
}

static void *remover(void *arg)
{
    (void)arg;
    remove_first();
    return NULL;
}

int main(void)
{
    pthread_t a, r;

    atomic_init(&head.next, (uintptr_t)&victim);
    pthread_create(&a, NULL, appender, &fresh);
    pthread_create(&r, NULL, remover, NULL);
    pthread_join(a, NULL);
    pthread_join(r, NULL);
    assert(pointer_of(atomic_load(&head.next)) == &fresh);
    return 0;
}
