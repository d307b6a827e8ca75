/* Treiber's stack by indexes, 0 for none. Its pop was written for one consumer, by a load and a store; with two, both get one node.
 * This isn't the ABA problem, which a pop by compare-exchange has: here no node is pushed again. */
#include <assert.h>
#include <pthread.h>
#include <stdatomic.h>
#include <stddef.h>

static atomic_int head;
static atomic_int next[3];
static atomic_int owner[3];

static void push(int node)
{
    int old = atomic_load(&head);

    do {
        atomic_store(&next[node], old);
    } while (!atomic_compare_exchange_weak(&head, &old, node));
}

static int pop(void)
{
    int old = atomic_load(&head);

#ifdef MENDED
    while (old != 0 && !atomic_compare_exchange_weak(&head, &old, atomic_load(&next[old])))
        ;
#else
    if (old != 0) {
        int behind = atomic_load(&next[old]);

        atomic_store(&head, behind);
    }
#endif
    return old;
}

static void *consumer(void *unused)
{
    int mine = pop();

    if (mine != 0) {
        int before = atomic_exchange(&owner[mine], 1);
        assert(before == 0);
    }
    return NULL;
}

int main(void)
{
    pthread_t a, b;

    push(1);
    push(2);
    pthread_create(&a, NULL, consumer, NULL);
    pthread_create(&b, NULL, consumer, NULL);
    pthread_join(a, NULL);
    pthread_join(b, NULL);
    return 0;
}
