/* A stack of allocated nodes. A pop reads the next node of the top while another pop takes that top off and frees it. The nodes that were
 * popped have to wait until no pop is under way, here until the threads have ended. */
#include <assert.h>
#include <pthread.h>
#include <stdatomic.h>
#include <stddef.h>
#include <stdint.h>
#include <stdlib.h>

struct node {
    struct node *next;
    int value;
};

static _Atomic(struct node *) top;

static void push(int value)
{
    struct node *node = malloc(sizeof(*node));
    struct node *old = atomic_load_explicit(&top, memory_order_relaxed);

    if (node == NULL)
        abort();
    node->value = value;
    do
        node->next = old;
    while (!atomic_compare_exchange_weak_explicit(&top, &old, node, memory_order_release, memory_order_relaxed));
}

static struct node *pop(void)
{
    struct node *old = atomic_load_explicit(&top, memory_order_acquire);

    while (old != NULL && !atomic_compare_exchange_weak_explicit(&top, &old, old->next, memory_order_acquire, memory_order_acquire))
        ;
    return old;
}

static struct node *taken[2];

static void *worker(void *arg)
{
    int me = (int)(intptr_t)arg;
    struct node *node = pop();

    if (node == NULL)
        return NULL;
    assert(node->value > 0);
#ifdef MENDED
    taken[me] = node;
#else
    (void)me;
    free(node);
#endif
    return NULL;
}

int main(void)
{
    pthread_t threads[2];

    push(1);
    push(2);
    for (int i = 0; i < 2; i++)
        pthread_create(&threads[i], NULL, worker, (void *)(intptr_t)i);
    for (int i = 0; i < 2; i++)
        pthread_join(threads[i], NULL);
    for (int i = 0; i < 2; i++)
        free(taken[i]);
    return 0;
}
