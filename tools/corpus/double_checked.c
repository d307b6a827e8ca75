/* An object that is made by the first thread that wants it: a test without the lock, and a second one under it.
 * BROKEN: the pointer is stored relaxed. A thread that finds it without the lock may read the object's fields before they are set. */
#include <assert.h>
#include <pthread.h>
#include <stdatomic.h>
#include <stddef.h>
#include <stdlib.h>

#define unlikely(x) __builtin_expect(!!(x), 0)

#ifdef BROKEN
#define PUBLISH memory_order_relaxed
#else
#define PUBLISH memory_order_release
#endif

struct logger {
    int level;
    int fd;
};

static _Atomic(struct logger *) instance;
static pthread_mutex_t instance_lock = PTHREAD_MUTEX_INITIALIZER;

static struct logger *logger_get(void)
{
    struct logger *it = atomic_load_explicit(&instance, memory_order_acquire);

    if (unlikely(!it)) {
        pthread_mutex_lock(&instance_lock);
        it = atomic_load_explicit(&instance, memory_order_relaxed);
        if (!it) {
            it = malloc(sizeof(*it));
            it->level = 3;
            it->fd = 2;
            atomic_store_explicit(&instance, it, PUBLISH);
        }
        pthread_mutex_unlock(&instance_lock);
    }
    return it;
}

static void *worker(void *arg)
{
    struct logger *it = logger_get();

    (void)arg;
    assert(it->level == 3 && it->fd == 2);
    return NULL;
}

int main(void)
{
    pthread_t t[2];

    for (int i = 0; i < 2; i++)
        pthread_create(&t[i], NULL, worker, NULL);
    for (int i = 0; i < 2; i++)
        pthread_join(t[i], NULL);
    free(atomic_load(&instance));
    return 0;
}
