/* A reader takes the current configuration under a hazard pointer, and a writer swaps it and frees the old one.
 * BROKEN: the reader doesn't look at the pointer again behind its announcement. The writer has swapped and looked in between, and the
 * reader uses freed memory. */
#include <assert.h>
#include <pthread.h>
#include <stdatomic.h>
#include <stddef.h>
#include <stdint.h>
#include <stdlib.h>

struct config {
    uint16_t version;
    uint16_t check;
};

typedef _Atomic(struct config *) config_ptr;

static config_ptr current;
static config_ptr hazard;

static struct config *make_config(uint16_t version)
{
    struct config *c = malloc(sizeof *c);

    *c = (struct config){ .version = version, .check = (uint16_t)~version };
    return c;
}

static struct config *acquire_config(void)
{
    struct config *c;

#ifdef BROKEN
    c = atomic_load(&current);
    atomic_store(&hazard, c);
#else
    do {
        c = atomic_load(&current);
        atomic_store(&hazard, c);
    } while (c != atomic_load(&current));
#endif
    return c;
}

static void *reader(void *arg)
{
    struct config *c = acquire_config();

    (void)arg;
    assert((c->check ^ c->version) == UINT16_MAX);
    atomic_store_explicit(&hazard, NULL, memory_order_release);
    return NULL;
}

static void *writer(void *arg)
{
    struct config *old = atomic_exchange(&current, (struct config *)arg);

    while (atomic_load(&hazard) == old)
        ;
    free(old);
    return NULL;
}

int main(void)
{
    pthread_t r, w;
    struct config *next = make_config(2);

    atomic_init(&current, make_config(1));
    pthread_create(&r, NULL, reader, NULL);
    pthread_create(&w, NULL, writer, next);
    pthread_join(r, NULL);
    pthread_join(w, NULL);
    free(current);
    return 0;
}
