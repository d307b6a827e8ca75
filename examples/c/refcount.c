/* A count of references that is taken down by a load and a store: both owners may find that the other one is left, or both free. */
#include <assert.h>
#include <pthread.h>
#include <stdatomic.h>
#include <stdbool.h>
#include <stddef.h>

static atomic_int references = 2;
static atomic_int freed;

static bool was_last(void)
{
#ifdef MENDED
    return atomic_fetch_sub_explicit(&references, 1, memory_order_acq_rel) == 1;
#else
    int left = atomic_load(&references) - 1;

    atomic_store(&references, left);
    return left == 0;
#endif
}

static void *owner(void *unused)
{
    if (was_last())
        freed = 1;
    return NULL;
}

int main(void)
{
    pthread_t a, b;

    pthread_create(&a, NULL, owner, NULL);
    pthread_create(&b, NULL, owner, NULL);
    pthread_join(a, NULL);
    pthread_join(b, NULL);
    assert(freed);
    return 0;
}
