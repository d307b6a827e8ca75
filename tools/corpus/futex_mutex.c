/* A mutex of three states (free, held, held and somebody may sleep) on a futex that a mutex and a condition stand for.
 * BROKEN: a thread that was woken takes the lock as "held" and forgets that others may sleep too. They are never woken. */
#include <assert.h>
#include <pthread.h>
#include <stdatomic.h>
#include <stddef.h>

enum state { FREE, HELD, CONTENDED };

static pthread_mutex_t bucket = PTHREAD_MUTEX_INITIALIZER;
static pthread_cond_t bucket_queue = PTHREAD_COND_INITIALIZER;
static atomic_int futex_word;
static int sum;

static void futex_wait(atomic_int *word, int expected)
{
    pthread_mutex_lock(&bucket);
    if (atomic_load(word) == expected)
        pthread_cond_wait(&bucket_queue, &bucket);
    pthread_mutex_unlock(&bucket);
}

static void futex_wake_one(void)
{
    pthread_mutex_lock(&bucket);
    pthread_cond_signal(&bucket_queue);
    pthread_mutex_unlock(&bucket);
}

static void lock(atomic_int *word)
{
    int seen = FREE;

    if (atomic_compare_exchange_strong(word, &seen, HELD))
        return;
#ifdef BROKEN
    do {
        int held = HELD;

        if (seen == CONTENDED || atomic_compare_exchange_strong(word, &held, CONTENDED))
            futex_wait(word, CONTENDED);
        seen = FREE;
    } while (!atomic_compare_exchange_strong(word, &seen, HELD));
#else
    if (seen != CONTENDED)
        seen = atomic_exchange(word, CONTENDED);
    while (seen != FREE) {
        futex_wait(word, CONTENDED);
        seen = atomic_exchange(word, CONTENDED);
    }
#endif
}

static void unlock(atomic_int *word)
{
    if (atomic_exchange(word, FREE) == CONTENDED)
        futex_wake_one();
}

static void *worker(void *arg)
{
    (void)arg;
    lock(&futex_word);
    sum++;
    unlock(&futex_word);
    return NULL;
}

int main(void)
{
    pthread_t a, b;

    pthread_create(&a, NULL, worker, NULL);
    pthread_create(&b, NULL, worker, NULL);
    worker(NULL);
    pthread_join(a, NULL);
    pthread_join(b, NULL);
    assert(sum == 3);
    return 0;
}
