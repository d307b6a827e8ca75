/* A phaser: the phase, the number of parties and how many of them haven't arrived, exchanged as a whole.
 * BROKEN: the last one to arrive sets the next phase's count to one party less. The second meeting ends before all have come. */
#include <assert.h>
#include <pthread.h>
#include <stdatomic.h>
#include <stddef.h>
#include <stdint.h>

struct phase_state {
    uint32_t phase;
    uint16_t parties;
    uint16_t unarrived;
};

static _Atomic(struct phase_state) state;
static atomic_int steps[2];

static void arrive_and_wait(void)
{
    struct phase_state old = atomic_load(&state), new;

    do {
        new = old;
        if (--new.unarrived == 0) {
            new.phase++;
#ifdef BROKEN
            new.unarrived = new.parties - 1;
#else
            new.unarrived = new.parties;
#endif
        }
    } while (!atomic_compare_exchange_weak(&state, &old, new));
    do {
        new = atomic_load(&state);
    } while (new.phase == old.phase);
}

static void *party(void *arg)
{
    size_t me = (size_t)(uintptr_t)arg;

    for (int step = 1; step <= 2; step++) {
        atomic_store(&steps[me], step);
        arrive_and_wait();
        assert(atomic_load(&steps[1 - me]) >= step);
    }
    return NULL;
}

int main(void)
{
    pthread_t t[2];

    atomic_store(&state, ((struct phase_state){ .parties = 2, .unarrived = 2 }));
    for (uintptr_t i = 0; i < 2; i++)
        pthread_create(&t[i], NULL, party, (void *)i);
    for (int i = 0; i < 2; i++)
        pthread_join(t[i], NULL);
    return 0;
}
