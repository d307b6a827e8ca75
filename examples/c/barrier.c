/* A barrier that counts and is used twice. Who comes last opens it and sets the count back; a thread that is slow to see it open finds it
 * closed again. With a round number it doesn't matter. */
#include <pthread.h>
#include <stddef.h>

#define THREADS 2

static pthread_mutex_t m = PTHREAD_MUTEX_INITIALIZER;
static pthread_cond_t all_here = PTHREAD_COND_INITIALIZER;
static int here;
#ifdef MENDED
static int rounds;
#endif

static void meet(void)
{
    pthread_mutex_lock(&m);
    here++;
#ifdef MENDED
    int mine = rounds;

    if (here == THREADS) {
        here = 0;
        rounds++;
        pthread_cond_broadcast(&all_here);
    }
    while (rounds == mine)
        pthread_cond_wait(&all_here, &m);
#else
    if (here == THREADS)
        pthread_cond_broadcast(&all_here);
    while (here < THREADS)
        pthread_cond_wait(&all_here, &m);
    here = 0;
#endif
    pthread_mutex_unlock(&m);
}

static void *walker(void *unused)
{
    for (int i = 0; i < 2; i++)
        meet();
    return NULL;
}

int main(void)
{
    pthread_t a, b;

    pthread_create(&a, NULL, walker, NULL);
    pthread_create(&b, NULL, walker, NULL);
    pthread_join(a, NULL);
    pthread_join(b, NULL);
    return 0;
}
