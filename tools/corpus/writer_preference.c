/* Readers and writers, where a reader also waits for writers that wait.
 * BROKEN: a writer that leaves wakes one reader instead of all. The other one sleeps for ever, for readers wake no readers. */
#include <assert.h>
#include <pthread.h>
#include <stdbool.h>
#include <stddef.h>

struct rw {
    pthread_mutex_t lock;
    pthread_cond_t may_read, may_write;
    unsigned readers, waiting_writers;
    bool writing;
};

static struct rw rw = {
    .lock = PTHREAD_MUTEX_INITIALIZER,
    .may_read = PTHREAD_COND_INITIALIZER,
    .may_write = PTHREAD_COND_INITIALIZER,
};
static int record[2];

static void start_read(struct rw *l)
{
    pthread_mutex_lock(&l->lock);
    while (l->writing || l->waiting_writers)
        pthread_cond_wait(&l->may_read, &l->lock);
    l->readers++;
    pthread_mutex_unlock(&l->lock);
}

static void end_read(struct rw *l)
{
    pthread_mutex_lock(&l->lock);
    if (--l->readers == 0)
        pthread_cond_signal(&l->may_write);
    pthread_mutex_unlock(&l->lock);
}

static void start_write(struct rw *l)
{
    pthread_mutex_lock(&l->lock);
    l->waiting_writers++;
    while (l->writing || l->readers)
        pthread_cond_wait(&l->may_write, &l->lock);
    l->waiting_writers--;
    l->writing = true;
    pthread_mutex_unlock(&l->lock);
}

static void end_write(struct rw *l)
{
    pthread_mutex_lock(&l->lock);
    l->writing = false;
    if (l->waiting_writers)
        pthread_cond_signal(&l->may_write);
    else
#ifdef BROKEN
        pthread_cond_signal(&l->may_read);
#else
        pthread_cond_broadcast(&l->may_read);
#endif
    pthread_mutex_unlock(&l->lock);
}

static void *reader(void *arg)
{
    (void)arg;
    start_read(&rw);
    assert(record[0] == record[1]);
    end_read(&rw);
    return NULL;
}

int main(void)
{
    pthread_t r[2];

    for (int i = 0; i < 2; i++)
        pthread_create(&r[i], NULL, reader, NULL);
    start_write(&rw);
    record[0] = record[1] = 8;
    end_write(&rw);
    for (int i = 0; i < 2; i++)
        pthread_join(r[i], NULL);
    return 0;
}
