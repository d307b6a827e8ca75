/* A bounded buffer with one mutex and two conditions. Who was woken doesn't look again whether something is there. */
#include <assert.h>
#include <pthread.h>
#include <stddef.h>

#define SIZE 1

#ifdef MENDED
#define until_not while
#else
#define until_not if
#endif

static pthread_mutex_t m = PTHREAD_MUTEX_INITIALIZER;
static pthread_cond_t not_empty = PTHREAD_COND_INITIALIZER, not_full = PTHREAD_COND_INITIALIZER;
static int count;

static void put(void)
{
    pthread_mutex_lock(&m);
    until_not (count == SIZE)
        pthread_cond_wait(&not_full, &m);
    count++;
    assert(count <= SIZE);
    pthread_cond_signal(&not_empty);
    pthread_mutex_unlock(&m);
}

static void get(void)
{
    pthread_mutex_lock(&m);
    until_not (count == 0)
        pthread_cond_wait(&not_empty, &m);
    count--;
    assert(count >= 0);
    pthread_cond_signal(&not_full);
    pthread_mutex_unlock(&m);
}

static void *consumer(void *unused)
{
    get();
    return NULL;
}

int main(void)
{
    pthread_t a, b;

    pthread_create(&a, NULL, consumer, NULL);
    pthread_create(&b, NULL, consumer, NULL);
    put();
    put();
    pthread_join(a, NULL);
    pthread_join(b, NULL);
    return 0;
}
