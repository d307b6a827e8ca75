/* Reclamation by quiescent states: a reader copies the grace period's number now and then, and holds nothing at that moment.
 * BROKEN: the writer begins its grace period before it takes the object away. A reader that has copied the new number still finds the old
 * object, and uses it after free. */
#include <assert.h>
#include <pthread.h>
#include <stddef.h>
#include <stdint.h>
#include <stdlib.h>

#define load_acquire(p) __atomic_load_n((p), __ATOMIC_ACQUIRE)
#define store_release(p, v) __atomic_store_n((p), (v), __ATOMIC_RELEASE)
#define OFFLINE UINT64_MAX

struct table {
    int size;
};

struct reader {
    uint64_t seen;
    pthread_t thread;
};

static struct table *table;
static uint64_t grace = 1;
static struct reader readers[1];
static __thread struct reader *self;

static inline void quiescent(void)
{
    store_release(&self->seen, load_acquire(&grace));
}

static void *lookup(void *arg)
{
    self = arg;
    for (int i = 0; i < 2; i++) {
        struct table *t = load_acquire(&table);

        assert(t->size == 8 || t->size == 16);
        quiescent();
    }
    store_release(&self->seen, OFFLINE);
    return NULL;
}

static uint64_t begin_grace(void)
{
    return __atomic_add_fetch(&grace, 1, __ATOMIC_SEQ_CST);
}

static void resize(void)
{
    struct table *old, *new = malloc(sizeof(*new));
    uint64_t target;

    new->size = 16;
#ifdef BROKEN
    target = begin_grace();
    old = __atomic_exchange_n(&table, new, __ATOMIC_SEQ_CST);
#else
    old = __atomic_exchange_n(&table, new, __ATOMIC_SEQ_CST);
    target = begin_grace();
#endif
    for (size_t i = 0; i < sizeof(readers) / sizeof(readers[0]); i++)
        while (load_acquire(&readers[i].seen) < target)
            ;
    free(old);
}

int main(void)
{
    table = malloc(sizeof(*table));
    table->size = 8;
    pthread_create(&readers[0].thread, NULL, lookup, &readers[0]);
    resize();
    pthread_join(readers[0].thread, NULL);
    free(table);
    return 0;
}
