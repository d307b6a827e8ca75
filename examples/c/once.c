/* Double-checked initialisation: the flag that says that the table is made is stored relaxed. */
#include <assert.h>
#include <pthread.h>
#include <stdatomic.h>
#include <stddef.h>

#ifdef MENDED
#define PUBLISH memory_order_release
#else
#define PUBLISH memory_order_relaxed
#endif

static pthread_mutex_t m = PTHREAD_MUTEX_INITIALIZER;
static atomic_int made;
static int table[2];

static void make_once(void)
{
    if (!atomic_load_explicit(&made, memory_order_acquire)) {
        pthread_mutex_lock(&m);
        if (!atomic_load_explicit(&made, memory_order_relaxed)) {
            table[0] = 3;
            table[1] = 4;
            atomic_store_explicit(&made, 1, PUBLISH);
        }
        pthread_mutex_unlock(&m);
    }
}

static void *user(void *unused)
{
    make_once();
    assert(table[1] == 4);
    return NULL;
}

int main(void)
{
    pthread_t a, b;

    pthread_create(&a, NULL, user, NULL);
    pthread_create(&b, NULL, user, NULL);
    pthread_join(a, NULL);
    pthread_join(b, NULL);
    return 0;
}
