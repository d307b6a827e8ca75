/* A barrier that can be used again: each thread knows by its own sense which meeting it waits for.
 * BROKEN: a thread doesn't keep its new sense. Its second wait asks for the sense of the first meeting and ends at once. */
#include <assert.h>
#include <pthread.h>
#include <stdatomic.h>
#include <stdbool.h>
#include <stddef.h>

#define PARTIES 2

struct sense_barrier {
    atomic_uint waiting;
    atomic_bool sense;
};

static struct sense_barrier barrier = { .waiting = PARTIES };
static __thread bool my_sense;
static int cell[PARTIES];

static void barrier_wait(struct sense_barrier *b)
{
    bool sense = !my_sense;

#ifndef BROKEN
    my_sense = sense;
#endif
    if (atomic_fetch_sub_explicit(&b->waiting, 1, memory_order_acq_rel) == 1) {
        atomic_store_explicit(&b->waiting, PARTIES, memory_order_relaxed);
        atomic_store_explicit(&b->sense, sense, memory_order_release);
    } else {
        while (atomic_load_explicit(&b->sense, memory_order_acquire) != sense)
            ;
    }
}

static void *party(void *arg)
{
    int *mine = arg;
    int me = (int)(mine - cell);

    *mine = 1;
    barrier_wait(&barrier);
    assert(cell[1 - me] == 1);
    barrier_wait(&barrier);
    *mine = 2;
    return NULL;
}

int main(void)
{
    pthread_t t[PARTIES];

    for (int i = 0; i < PARTIES; i++)
        pthread_create(&t[i], NULL, party, &cell[i]);
    for (int i = 0; i < PARTIES; i++)
        pthread_join(t[i], NULL);
    return 0;
}
