/* Pop from a stack under hazard pointers; the thread that unlinks a node frees it if no other thread announces it.
 * BROKEN: the announcement is a release store. It waits in the store buffer while the other thread looks for it and frees the node, whose
 * next is then read. */
#include <assert.h>
#include <pthread.h>
#include <stdatomic.h>
#include <stddef.h>
#include <stdint.h>
#include <stdlib.h>

#ifdef BROKEN
#define ANNOUNCE memory_order_release
#else
#define ANNOUNCE memory_order_seq_cst
#endif

struct node {
    struct node *next;
    int value;
};

static _Atomic(struct node *) top;
static _Atomic(struct node *) hazard[2];
static struct node *limbo[2];
static __thread int me;

static void retire(struct node *n)
{
    if (atomic_load(&hazard[!me]) == n)
        limbo[me] = n;
    else
        free(n);
}

static int pop(void)
{
    struct node *n, *seen;
    int value;

    for (;;) {
        n = atomic_load_explicit(&top, memory_order_acquire);
        if (!n)
            return 0;
        atomic_store_explicit(&hazard[me], n, ANNOUNCE);
        if (atomic_load(&top) != n)
            continue;
        seen = n;
        if (atomic_compare_exchange_strong(&top, &seen, n->next))
            break;
    }
    atomic_store_explicit(&hazard[me], NULL, memory_order_release);
    value = n->value;
    retire(n);
    return value;
}

static void *popper(void *arg)
{
    me = (int)(intptr_t)arg;
    return (void *)(intptr_t)pop();
}

int main(void)
{
    pthread_t t[2];
    void *got[2];

    for (int i = 1; i <= 2; i++) {
        struct node *n = malloc(sizeof(*n));

        n->value = i;
        n->next = atomic_load_explicit(&top, memory_order_relaxed);
        atomic_store_explicit(&top, n, memory_order_relaxed);
    }
    for (intptr_t i = 0; i < 2; i++)
        pthread_create(&t[i], NULL, popper, (void *)i);
    for (int i = 0; i < 2; i++)
        pthread_join(t[i], &got[i]);
    for (int i = 0; i < 2; i++)
        free(limbo[i]);
    assert((intptr_t)got[0] + (intptr_t)got[1] == 3);
    return 0;
}
