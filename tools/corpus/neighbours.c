/* Each thread adds its neighbour's cell to its own, in steps that a barrier separates.
 * BROKEN: there is no barrier between reading and writing. A thread reads what its neighbour has already written. */
#include <assert.h>
#include <pthread.h>
#include <stdatomic.h>
#include <stddef.h>

#define CELLS 2

struct automaton {
    pthread_barrier_t step;
    atomic_int cell[CELLS];
};

struct worker {
    struct automaton *of;
    int index;
    pthread_t thread;
};

static struct automaton automaton = { .cell = { 1, 2 } };

static void *grow(void *arg)
{
    struct worker *w = arg;
    struct automaton *a = w->of;
    int mine = atomic_load_explicit(&a->cell[w->index], memory_order_relaxed);
    int next = atomic_load_explicit(&a->cell[(w->index + 1) % CELLS], memory_order_relaxed);

#ifndef BROKEN
    pthread_barrier_wait(&a->step);
#endif
    atomic_store_explicit(&a->cell[w->index], mine + next, memory_order_relaxed);
    return NULL;
}

int main(void)
{
    struct worker workers[CELLS];

    pthread_barrier_init(&automaton.step, NULL, CELLS);
    for (int i = 0; i < CELLS; i++) {
        workers[i].of = &automaton;
        workers[i].index = i;
    }
    for (int i = 0; i < CELLS; i++)
        pthread_create(&workers[i].thread, NULL, grow, &workers[i]);
    for (int i = 0; i < CELLS; i++)
        pthread_join(workers[i].thread, NULL);
    for (int i = 0; i < CELLS; i++)
        assert(automaton.cell[i] == 3);
    pthread_barrier_destroy(&automaton.step);
    return 0;
}
