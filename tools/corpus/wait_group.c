/* A wait group: main waits until all workers have said that they are done.
 * BROKEN: a worker adds itself when it starts, and not main before it creates it. Main waits for nobody. */
#include <assert.h>
#include <pthread.h>
#include <stddef.h>

struct wait_group {
    pthread_mutex_t lock;
    pthread_cond_t zero;
    long count;
};

struct job {
    struct wait_group *group;
    int input;
    int output;
};

static void wg_add(struct wait_group *g, long by)
{
    pthread_mutex_lock(&g->lock);
    g->count += by;
    assert(g->count >= 0);
    if (g->count == 0)
        pthread_cond_broadcast(&g->zero);
    pthread_mutex_unlock(&g->lock);
}

static void wg_wait(struct wait_group *g)
{
    pthread_mutex_lock(&g->lock);
    while (g->count > 0)
        pthread_cond_wait(&g->zero, &g->lock);
    pthread_mutex_unlock(&g->lock);
}

static void *work(void *arg)
{
    struct job *j = arg;

#ifdef BROKEN
    wg_add(j->group, 1);
#endif
    __atomic_store_n(&j->output, j->input * j->input, __ATOMIC_RELAXED);
    wg_add(j->group, -1);
    return NULL;
}

int main(void)
{
    struct wait_group group = { PTHREAD_MUTEX_INITIALIZER, PTHREAD_COND_INITIALIZER, 0 };
    struct job jobs[2] = { { &group, 3, 0 }, { &group, 4, 0 } };
    pthread_t t[2];

    for (int i = 0; i < 2; i++) {
#ifndef BROKEN
        wg_add(&group, 1);
#endif
        pthread_create(&t[i], NULL, work, &jobs[i]);
    }
    wg_wait(&group);
    int sum = 0;
    for (int i = 0; i < 2; i++)
        sum += __atomic_load_n(&jobs[i].output, __ATOMIC_RELAXED);
    assert(sum == 25);
    for (int i = 0; i < 2; i++)
        pthread_join(t[i], NULL);
    return 0;
}
