/* A pool of request objects with a free list under a lock.
 * BROKEN: an object is cleared after it was put back. Another thread has taken it, and its request is wiped out. */
#include <assert.h>
#include <pthread.h>
#include <stddef.h>
#include <string.h>

struct request {
    struct request *next_free;
    struct {
        int opcode;
        unsigned long offset;
    } body;
};

struct pool {
    pthread_mutex_t lock;
    struct request *free_list;
};

static struct request storage[1];
static struct pool pool = { .lock = PTHREAD_MUTEX_INITIALIZER, .free_list = &storage[0] };

static struct request *pool_get(struct pool *p)
{
    struct request *r;

    pthread_mutex_lock(&p->lock);
    r = p->free_list;
    if (r)
        p->free_list = r->next_free;
    pthread_mutex_unlock(&p->lock);
    return r;
}

static void pool_put(struct pool *p, struct request *r)
{
#ifndef BROKEN
    memset(&r->body, 0, sizeof(r->body));
#endif
    pthread_mutex_lock(&p->lock);
    r->next_free = p->free_list;
    p->free_list = r;
    pthread_mutex_unlock(&p->lock);
#ifdef BROKEN
    memset(&r->body, 0, sizeof(r->body));
#endif
}

static void *client(void *arg)
{
    int opcode = *(int *)arg;
    struct request *r = pool_get(&pool);

    if (!r)
        goto out;
    r->body.opcode = opcode;
    r->body.offset = 4096;
    assert(r->body.opcode == opcode);
    assert(r->body.offset == 4096);
    pool_put(&pool, r);
out:
    return NULL;
}

int main(void)
{
    int opcodes[] = { 1, 2 };
    pthread_t t[2];

    for (size_t i = 0; i < sizeof(opcodes) / sizeof(opcodes[0]); i++)
        pthread_create(&t[i], NULL, client, &opcodes[i]);
    for (size_t i = 0; i < 2; i++)
        pthread_join(t[i], NULL);
    return 0;
}
