/* A configuration with a count of references, which a writer replaces. A reader takes its reference under a small lock.
 * BROKEN: the reader loads the pointer and takes its reference without the lock. The writer drops the last reference in between, and the
 * reader counts up in freed memory. */
#include <assert.h>
#include <pthread.h>
#include <stddef.h>
#include <stdlib.h>

struct config {
    int refs;
    int timeout;
};

static struct config *current;
static pthread_spinlock_t current_lock;

static struct config *config_new(int timeout)
{
    struct config *c = calloc(1, sizeof(*c));

    c->refs = 1;
    c->timeout = timeout;
    return c;
}

static struct config *config_get(void)
{
    struct config *c;

#ifdef BROKEN
    c = __atomic_load_n(&current, __ATOMIC_ACQUIRE);
    __sync_fetch_and_add(&c->refs, 1);
#else
    pthread_spin_lock(&current_lock);
    c = current;
    __sync_fetch_and_add(&c->refs, 1);
    pthread_spin_unlock(&current_lock);
#endif
    return c;
}

static void config_put(struct config *c)
{
    if (__sync_sub_and_fetch(&c->refs, 1) == 0)
        free(c);
}

static void config_replace(struct config *c)
{
    struct config *old;

    pthread_spin_lock(&current_lock);
    old = current;
    __atomic_store_n(&current, c, __ATOMIC_RELEASE);
    pthread_spin_unlock(&current_lock);
    config_put(old);
}

static void *server(void *arg)
{
    struct config *c = config_get();

    (void)arg;
    assert(c->timeout == 5 || c->timeout == 9);
    config_put(c);
    return NULL;
}

int main(void)
{
    pthread_t s;

    pthread_spin_init(&current_lock, 0);
    current = config_new(5);
    pthread_create(&s, NULL, server, NULL);
    config_replace(config_new(9));
    pthread_join(s, NULL);
    config_put(current);
    return 0;
}
