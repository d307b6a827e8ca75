/* Transfers between two accounts, each with a lock. Who can't have the second lock gives the first one back and tries again.
 * BROKEN: the second lock is waited for. Two transfers in opposite directions hold one each. */
#include <assert.h>
#include <pthread.h>
#include <stdbool.h>
#include <stddef.h>
#include <unistd.h>

struct account {
    pthread_mutex_t lock;
    long long cents;
};

struct order {
    struct account *from, *to;
    long long cents;
};

static struct account accounts[2] = {
    { .lock = PTHREAD_MUTEX_INITIALIZER, .cents = 100 },
    { .lock = PTHREAD_MUTEX_INITIALIZER, .cents = 100 },
};

static void lock_both(struct account *a, struct account *b)
{
    for (;;) {
        pthread_mutex_lock(&a->lock);
#ifdef BROKEN
        pthread_mutex_lock(&b->lock);
        return;
#else
        if (pthread_mutex_trylock(&b->lock) == 0)
            return;
        pthread_mutex_unlock(&a->lock);
        usleep(10);
#endif
    }
}

static void *transfer(void *arg)
{
    const struct order *o = arg;

    lock_both(o->from, o->to);
    if (o->from->cents >= o->cents) {
        o->from->cents -= o->cents;
        o->to->cents += o->cents;
    }
    pthread_mutex_unlock(&o->to->lock);
    pthread_mutex_unlock(&o->from->lock);
    return NULL;
}

int main(void)
{
    static struct order orders[2] = {
        { .from = &accounts[0], .to = &accounts[1], .cents = 30 },
        { .from = &accounts[1], .to = &accounts[0], .cents = 50 },
    };
    pthread_t t[2];

    for (int i = 0; i < 2; i++)
        pthread_create(&t[i], NULL, transfer, &orders[i]);
    for (int i = 0; i < 2; i++)
        pthread_join(t[i], NULL);
    assert(accounts[0].cents == 120 && accounts[1].cents == 80);
    return 0;
}
