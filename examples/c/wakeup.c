/* A lost wake-up: the flag is looked at before the mutex is taken, so the signal may come between. */
#include <pthread.h>
#include <stdatomic.h>
#include <stddef.h>

static pthread_mutex_t m = PTHREAD_MUTEX_INITIALIZER;
static pthread_cond_t changed = PTHREAD_COND_INITIALIZER;
static atomic_int set;

static void *waiter(void *unused)
{
#ifdef MENDED
    pthread_mutex_lock(&m);
    while (!set)
        pthread_cond_wait(&changed, &m);
    pthread_mutex_unlock(&m);
#else
    if (!set) {
        pthread_mutex_lock(&m);
        pthread_cond_wait(&changed, &m);
        pthread_mutex_unlock(&m);
    }
#endif
    return NULL;
}

int main(void)
{
    pthread_t t;

    pthread_create(&t, NULL, waiter, NULL);
    pthread_mutex_lock(&m);
    set = 1;
    pthread_cond_signal(&changed);
    pthread_mutex_unlock(&m);
    pthread_join(t, NULL);
    return 0;
}
