/* Hazard pointers by indexes: a reader announces the node that it will read and looks again whether it is still the current one. The
 * announcement may wait in a buffer while the writer, who sees none, clears the old node. */
#include <assert.h>
#include <pthread.h>
#include <stdatomic.h>
#include <stddef.h>

#ifdef MENDED
#define ANNOUNCE memory_order_seq_cst
#else
#define ANNOUNCE memory_order_release
#endif

static atomic_int current = 1, hazard;
static atomic_int value[3] = {0, 10, 20};

static void *reader(void *unused)
{
    int node = atomic_load_explicit(&current, memory_order_acquire);

    atomic_store_explicit(&hazard, node, ANNOUNCE);
    if (atomic_load_explicit(&current, memory_order_seq_cst) == node)
        assert(atomic_load_explicit(&value[node], memory_order_relaxed) != 0);
    atomic_store_explicit(&hazard, 0, memory_order_release);
    return NULL;
}

static void *writer(void *unused)
{
    atomic_store(&current, 2);
    if (atomic_load(&hazard) != 1)
        atomic_store_explicit(&value[1], 0, memory_order_relaxed);
    return NULL;
}

int main(void)
{
    pthread_t r, w;

    pthread_create(&r, NULL, reader, NULL);
    pthread_create(&w, NULL, writer, NULL);
    pthread_join(r, NULL);
    pthread_join(w, NULL);
    return 0;
}
