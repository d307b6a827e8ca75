/* A channel of one element that can be closed; a receiver of a closed channel gets nothing.
 * BROKEN: close wakes one receiver instead of all. */
#include <assert.h>
#include <pthread.h>
#include <stdbool.h>
#include <stddef.h>

struct channel {
    pthread_mutex_t lock;
    pthread_cond_t readable;
    bool has_value, closed;
    int value;
};

struct receiver {
    struct channel *from;
    int got;
    bool ok;
};

static bool channel_receive(struct channel *c, int *value)
{
    bool ok = false;

    pthread_mutex_lock(&c->lock);
    while (!c->has_value && !c->closed)
        pthread_cond_wait(&c->readable, &c->lock);
    if (!c->has_value)
        goto out;
    *value = c->value;
    c->has_value = false;
    ok = true;
out:
    pthread_mutex_unlock(&c->lock);
    return ok;
}

static void channel_send(struct channel *c, int value)
{
    pthread_mutex_lock(&c->lock);
    assert(!c->closed && !c->has_value);
    c->value = value;
    c->has_value = true;
    pthread_cond_signal(&c->readable);
    pthread_mutex_unlock(&c->lock);
}

static void channel_close(struct channel *c)
{
    pthread_mutex_lock(&c->lock);
    c->closed = true;
#ifdef BROKEN
    pthread_cond_signal(&c->readable);
#else
    pthread_cond_broadcast(&c->readable);
#endif
    pthread_mutex_unlock(&c->lock);
}

static void *receive(void *arg)
{
    struct receiver *r = arg;

    r->ok = channel_receive(r->from, &r->got);
    return NULL;
}

int main(void)
{
    static struct channel channel = { .lock = PTHREAD_MUTEX_INITIALIZER, .readable = PTHREAD_COND_INITIALIZER };
    static struct receiver receivers[3] = { { .from = &channel }, { .from = &channel }, { .from = &channel } };
    pthread_t t[3];
    int received = 0;

    for (int i = 0; i < 3; i++)
        pthread_create(&t[i], NULL, receive, &receivers[i]);
    channel_send(&channel, 11);
    channel_close(&channel);
    for (int i = 0; i < 3; i++) {
        pthread_join(t[i], NULL);
        received += receivers[i].ok;
    }
    assert(received == 1);
    return 0;
}
