/* A cache of names: a lookup under the read lock, and an insertion under the write lock if nothing was found.
 * BROKEN: the insertion doesn't look again. Two threads miss the same name, and it is inserted twice. */
#include <assert.h>
#include <pthread.h>
#include <stddef.h>
#include <stdlib.h>

struct name {
    int id;
    struct name *next;
};

struct cache {
    pthread_rwlock_t lock;
    struct name *names;
    size_t count;
};

static struct cache cache = { .lock = PTHREAD_RWLOCK_INITIALIZER };

static struct name *find_locked(struct cache *c, int id)
{
    struct name *n = c->names;

    while (n && n->id != id)
        n = n->next;
    return n;
}

static struct name *intern(struct cache *c, int id)
{
    struct name *n;

    pthread_rwlock_rdlock(&c->lock);
    n = find_locked(c, id);
    pthread_rwlock_unlock(&c->lock);
    if (n)
        return n;

    pthread_rwlock_wrlock(&c->lock);
#ifndef BROKEN
    n = find_locked(c, id);
    if (n)
        goto unlock;
#endif
    n = malloc(sizeof(*n));
    n->id = id;
    n->next = c->names;
    c->names = n;
    c->count++;
#ifndef BROKEN
unlock:
#endif
    pthread_rwlock_unlock(&c->lock);
    return n;
}

static void *worker(void *arg)
{
    struct name *n = intern(arg, 77);

    assert(n->id == 77);
    return NULL;
}

int main(void)
{
    pthread_t t[2];

    for (int i = 0; i < 2; i++)
        pthread_create(&t[i], NULL, worker, &cache);
    for (int i = 0; i < 2; i++)
        pthread_join(t[i], NULL);
    assert(cache.count == 1);
    free(cache.names);
    return 0;
}
