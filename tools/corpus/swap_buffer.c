/* Two threads replace the current buffer, each frees what it has replaced.
 * BROKEN: the old buffer is loaded and the new one stored in two steps. Both free the same buffer. */
#include <assert.h>
#include <pthread.h>
#include <stdatomic.h>
#include <stddef.h>
#include <stdint.h>
#include <stdlib.h>

struct buffer {
    uint8_t bytes[2];
};

static _Atomic(struct buffer *) current;

static struct buffer *buffer_new(uint8_t fill)
{
    struct buffer *b = malloc(sizeof(*b));

    b->bytes[0] = b->bytes[1] = fill;
    return b;
}

static void replace(struct buffer *by)
{
    struct buffer *old;

#ifdef BROKEN
    old = atomic_load(&current);
    atomic_store(&current, by);
#else
    old = atomic_exchange(&current, by);
#endif
    assert(old->bytes[0] == old->bytes[1]);
    free(old);
}

static void *replacer(void *arg)
{
    replace(arg);
    return NULL;
}

int main(void)
{
    pthread_t t[2];

    atomic_init(&current, buffer_new(1));
    for (uint8_t i = 0; i < 2; i++)
        pthread_create(&t[i], NULL, replacer, buffer_new(i + 2));
    for (int i = 0; i < 2; i++)
        pthread_join(t[i], NULL);
    free(atomic_load(&current));
    return 0;
}
