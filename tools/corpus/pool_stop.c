/* A pool with one worker, a list of jobs with a function each, and a stop flag.
 * BROKEN: the worker looks at the flag before it waits, but not again when it was woken, so that it goes back to sleep. */
#include <assert.h>
#include <pthread.h>
#include <stdbool.h>
#include <stddef.h>

struct job {
    void (*run)(struct job *);
    int argument, result;
    struct job *next;
};

static struct pool {
    pthread_mutex_t lock;
    pthread_cond_t wake;
    struct job *jobs;
    bool stop;
} pool = { .lock = PTHREAD_MUTEX_INITIALIZER, .wake = PTHREAD_COND_INITIALIZER };

static void twice(struct job *j)
{
    j->result = 2 * j->argument;
}

static void negated(struct job *j)
{
    j->result = -j->argument;
}

static void submit(struct job *j)
{
    pthread_mutex_lock(&pool.lock);
    j->next = pool.jobs;
    pool.jobs = j;
    pthread_cond_signal(&pool.wake);
    pthread_mutex_unlock(&pool.lock);
}

static void *worker(void *arg)
{
    struct pool *p = arg;

    pthread_mutex_lock(&p->lock);
    for (;;) {
        struct job *j;

#ifdef BROKEN
        if (p->stop && !p->jobs)
            break;
        while (!p->jobs)
            pthread_cond_wait(&p->wake, &p->lock);
#else
        while (!p->jobs && !p->stop)
            pthread_cond_wait(&p->wake, &p->lock);
        if (!p->jobs)
            break;
#endif
        j = p->jobs;
        p->jobs = j->next;
        pthread_mutex_unlock(&p->lock);
        j->run(j);
        pthread_mutex_lock(&p->lock);
    }
    pthread_mutex_unlock(&p->lock);
    return NULL;
}

int main(void)
{
    static struct job jobs[2] = { { .run = twice, .argument = 21 }, { .run = negated, .argument = 7 } };
    pthread_t w;

    pthread_create(&w, NULL, worker, &pool);
    submit(&jobs[0]);
    submit(&jobs[1]);
    pthread_mutex_lock(&pool.lock);
    pool.stop = true;
    pthread_cond_broadcast(&pool.wake);
    pthread_mutex_unlock(&pool.lock);
    pthread_join(w, NULL);
    assert(jobs[0].result == 42 && jobs[1].result == -7);
    return 0;
}
