/* A device is closed in two phases: no more users are let in, and when the last one has left it is freed.
 * BROKEN: a user looks whether the device is open and then counts itself. The device is closed and freed in between. */
#include <assert.h>
#include <pthread.h>
#include <sched.h>
#include <stdatomic.h>
#include <stdbool.h>
#include <stddef.h>
#include <stdlib.h>

struct device {
    int registers[2];
};

static struct gate {
    atomic_bool closing;
    atomic_int users;
    struct device *device;
} gate;

static bool gate_enter(struct gate *g)
{
#ifdef BROKEN
    if (atomic_load(&g->closing))
        return false;
    atomic_fetch_add(&g->users, 1);
    return true;
#else
    atomic_fetch_add(&g->users, 1);
    if (!atomic_load(&g->closing))
        return true;
    atomic_fetch_sub(&g->users, 1);
    return false;
#endif
}

static void gate_leave(struct gate *g)
{
    atomic_fetch_sub(&g->users, 1);
}

static void gate_close(struct gate *g)
{
    atomic_store(&g->closing, true);
    while (atomic_load(&g->users) > 0)
        sched_yield();
    free(g->device);
}

static void *user(void *arg)
{
    struct gate *g = arg;

    if (!gate_enter(g))
        return NULL;
    assert(g->device->registers[1] == 0x20);
    gate_leave(g);
    return NULL;
}

int main(void)
{
    pthread_t u;

    gate.device = malloc(sizeof(struct device));
    gate.device->registers[0] = 0x10;
    gate.device->registers[1] = 0x20;
    pthread_create(&u, NULL, user, &gate);
    gate_close(&gate);
    pthread_join(u, NULL);
    return 0;
}
