/* A stack of static nodes whose head is a pointer's number and a tag, exchanged as a whole.
 * BROKEN: the tag isn't raised. A pop reads a node's next, is passed by two pops and a push of the same node, and its exchange succeeds
 * (ABA): the stack's top is then a node that a thread owns. */
#include <assert.h>
#include <pthread.h>
#include <stdatomic.h>
#include <stdint.h>
#include <stddef.h>

struct node {
    _Atomic(uint32_t) next; /* the number of a node, 0 is none */
    atomic_int owners;
};

struct head {
    uint32_t index;
    uint32_t tag;
};
_Static_assert(sizeof(struct head) == 8, "a head is exchanged as 64 bits");

static struct node nodes[3] = { [1] = { .next = 2 } };
static _Atomic(struct head) top;

static void push(uint32_t n)
{
    struct head old = atomic_load(&top), new;

    do {
        atomic_store(&nodes[n].next, old.index);
        new.index = n;
        new.tag = old.tag;
    } while (!atomic_compare_exchange_weak(&top, &old, new));
}

static uint32_t pop(void)
{
    struct head old = atomic_load(&top), new;

    do {
        if (old.index == 0)
            return 0;
        new.index = atomic_load(&nodes[old.index].next);
#ifdef BROKEN
        new.tag = old.tag;
#else
        new.tag = old.tag + 1;
#endif
    } while (!atomic_compare_exchange_weak(&top, &old, new));
    return old.index;
}

static void own(uint32_t n)
{
    int before = atomic_fetch_add(&nodes[n].owners, 1);

    assert(before == 0);
}

static void *one(void *arg)
{
    uint32_t n = pop();

    (void)arg;
    if (n)
        own(n);
    n = pop();
    if (n)
        own(n);
    return NULL;
}

static void *other(void *arg)
{
    uint32_t first = pop();
    uint32_t second = pop();

    (void)arg;
    if (second)
        own(second);
    if (first)
        push(first);
    return NULL;
}

int main(void)
{
    pthread_t a, b;

    atomic_init(&top, ((struct head){ .index = 1, .tag = 0 }));
    pthread_create(&a, NULL, one, NULL);
    pthread_create(&b, NULL, other, NULL);
    pthread_join(a, NULL);
    pthread_join(b, NULL);
    return 0;
}
