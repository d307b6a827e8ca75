/* An object with a count of its owners, as a shared pointer has it. The last owner destroys it.
 * BROKEN: an owner decrements the count and then reads it in a second step. Two owners both read 0, and the object is freed twice. */
#include <assert.h>
#include <pthread.h>
#include <stdatomic.h>
#include <stddef.h>
#include <stdlib.h>

typedef struct object object_t;

struct object {
    atomic_size_t refs;
    void (*destroy)(object_t *);
    unsigned char payload[4];
};

static void destroy_object(object_t *it)
{
    free(it);
}

static object_t *object_new(size_t owners)
{
    object_t *it = malloc(sizeof *it);

    atomic_init(&it->refs, owners);
    it->destroy = destroy_object;
    for (size_t i = 0; i < sizeof it->payload; i++)
        it->payload[i] = (unsigned char)i;
    return it;
}

static void object_put(object_t *it)
{
#ifdef BROKEN
    atomic_fetch_sub_explicit(&it->refs, 1, memory_order_acq_rel);
    if (atomic_load_explicit(&it->refs, memory_order_acquire) == 0)
        it->destroy(it);
#else
    if (atomic_fetch_sub_explicit(&it->refs, 1, memory_order_release) == 1) {
        (void)atomic_load_explicit(&it->refs, memory_order_acquire);
        it->destroy(it);
    }
#endif
}

static void *owner(void *arg)
{
    object_t *it = arg;

    assert(it->payload[3] == 3);
    object_put(it);
    return NULL;
}

int main(void)
{
    object_t *it = object_new(2);
    pthread_t a, b;

    pthread_create(&a, NULL, owner, it);
    pthread_create(&b, NULL, owner, it);
    pthread_join(a, NULL);
    pthread_join(b, NULL);
    return 0;
}
