/* Epochs with three bags: what is retired in an epoch lies in its bag until no reader can hold it any more.
 * BROKEN: an advance frees the bag of the epoch that just ended, one too early. A reader of that epoch is still active and uses it. */
#include <assert.h>
#include <pthread.h>
#include <stdatomic.h>
#include <stdbool.h>
#include <stddef.h>
#include <stdlib.h>

#ifdef BROKEN
#define LAG 1
#else
#define LAG 2
#endif

struct item {
    int value;
};

static _Atomic(struct item *) current;
static atomic_uint epoch = 3;
static atomic_uint reader_epoch; /* 0: not active */
static struct item *bag[3];

static struct item *enter(void)
{
    atomic_store(&reader_epoch, atomic_load(&epoch));
    return atomic_load(&current);
}

static void leave(void)
{
    atomic_store_explicit(&reader_epoch, 0, memory_order_release);
}

static void retire(struct item *it)
{
    bag[atomic_load(&epoch) % 3] = it;
}

static bool try_advance(void)
{
    unsigned now = atomic_load(&epoch), active = atomic_load(&reader_epoch);
    struct item **old;

    if (active != 0 && active != now)
        return false;
    atomic_store(&epoch, now + 1);
    old = &bag[(now + 1 - LAG) % 3];
    free(*old);
    *old = NULL;
    return true;
}

static void *reader(void *arg)
{
    struct item *it = enter();

    (void)arg;
    assert(it->value == 1 || it->value == 2);
    leave();
    return NULL;
}

int main(void)
{
    struct item *items[2];
    pthread_t r;

    for (int i = 0; i < 2; i++) {
        items[i] = malloc(sizeof(struct item));
        items[i]->value = i + 1;
    }
    atomic_store(&current, items[0]);
    pthread_create(&r, NULL, reader, NULL);

    retire(atomic_exchange(&current, items[1]));
    if (try_advance())
        (void)try_advance();

    pthread_join(r, NULL);
    for (int i = 0; i < 3; i++)
        free(bag[i]);
    free(items[1]);
    return 0;
}
