/* A stack of nodes that are linked by pointers. Nodes are pushed once, so that there is no ABA.
 * BROKEN: push links the node before its retry loop. When the exchange fails, the node still points to the old top, and a node is lost. */
#include <assert.h>
#include <pthread.h>
#include <stdatomic.h>
#include <stddef.h>
#include <stdlib.h>

struct node {
    struct node *next;
    int value;
};

struct stack {
    _Atomic(struct node *) top;
};

static struct stack stack;

static void push(struct stack *s, int value)
{
    struct node *n = malloc(sizeof(*n));

    n->value = value;
    struct node *old = atomic_load_explicit(&s->top, memory_order_relaxed);
#ifdef BROKEN
    n->next = old;
    while (!atomic_compare_exchange_weak_explicit(&s->top, &old, n, memory_order_release, memory_order_relaxed))
        ;
#else
    do {
        n->next = old;
    } while (!atomic_compare_exchange_weak_explicit(&s->top, &old, n, memory_order_release, memory_order_relaxed));
#endif
}

static struct node *take_all(struct stack *s)
{
    return atomic_exchange_explicit(&s->top, NULL, memory_order_acquire);
}

static void *pusher(void *arg)
{
    push(&stack, *(int *)arg);
    return NULL;
}

int main(void)
{
    int values[2] = { 1, 2 }, sum = 0;
    pthread_t t[2];

    for (int i = 0; i < 2; i++)
        pthread_create(&t[i], NULL, pusher, &values[i]);
    for (int i = 0; i < 2; i++)
        pthread_join(t[i], NULL);
    for (struct node *n = take_all(&stack), *next; n; n = next) {
        next = n->next;
        sum += n->value;
        free(n);
    }
    assert(sum == 3);
    return 0;
}
