/* Three philosophers who each take the left fork and then the right one. */
#include <pthread.h>
#include <stddef.h>
#include <stdint.h>

#define COUNT 3

static pthread_mutex_t fork_of[COUNT];
static int meals;
static pthread_mutex_t counting = PTHREAD_MUTEX_INITIALIZER;

static void *philosopher(void *which)
{
    int me = (int)(intptr_t)which;
    int first = me, second = (me + 1) % COUNT;

#ifdef MENDED
    if (first > second) {
        int other = first;

        first = second;
        second = other;
    }
#endif
    pthread_mutex_lock(&fork_of[first]);
    pthread_mutex_lock(&fork_of[second]);
    pthread_mutex_lock(&counting);
    meals++;
    pthread_mutex_unlock(&counting);
    pthread_mutex_unlock(&fork_of[second]);
    pthread_mutex_unlock(&fork_of[first]);
    return NULL;
}

int main(void)
{
    pthread_t t[COUNT];

    for (int i = 0; i < COUNT; i++)
        pthread_mutex_init(&fork_of[i], NULL);
    for (int i = 0; i < COUNT; i++)
        pthread_create(&t[i], NULL, philosopher, (void *)(intptr_t)i);
    for (int i = 0; i < COUNT; i++)
        pthread_join(t[i], NULL);
    return 0;
}
