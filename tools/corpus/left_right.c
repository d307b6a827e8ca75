/* Left-Right: readers never wait. The writer changes the instance that nobody reads, sends readers there, and then changes the other one.
 * BROKEN: the writer changes the other instance at once, without waiting for the readers that are still in it. */
#include <assert.h>
#include <pthread.h>
#include <stdatomic.h>
#include <stddef.h>

struct point {
    long x, y;
};

static struct left_right {
    struct point side[2];
    atomic_int which;
    atomic_int version;
    atomic_long inside[2];
} lr = { .side = { { 1, 1 }, { 1, 1 } } };

static struct point read_point(void)
{
    struct point p;
    int version = atomic_load(&lr.version);

    atomic_fetch_add(&lr.inside[version], 1);
    p = lr.side[atomic_load(&lr.which)];
    atomic_fetch_sub(&lr.inside[version], 1);
    return p;
}

static void write_point(struct point p)
{
    int other = !atomic_load(&lr.which);

    lr.side[other] = p;
    atomic_store(&lr.which, other);
#ifndef BROKEN
    int version = atomic_load(&lr.version);

    while (atomic_load(&lr.inside[!version]))
        ;
    atomic_store(&lr.version, !version);
    while (atomic_load(&lr.inside[version]))
        ;
#endif
    lr.side[!other] = p;
}

static void *reader(void *arg)
{
    struct point p = read_point();

    (void)arg;
    assert(p.x == p.y);
    return NULL;
}

int main(void)
{
    pthread_t r;

    pthread_create(&r, NULL, reader, NULL);
    write_point((struct point){ .x = 2, .y = 2 });
    pthread_join(r, NULL);
    return 0;
}
