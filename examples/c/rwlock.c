/* A reader-writer lock of one atomic int: -1 for a writer, else the number of readers. The writer looks and then writes, in two steps. */
#include <assert.h>
#include <pthread.h>
#include <stdatomic.h>
#include <stddef.h>

static atomic_int state;
static atomic_bool writing;
static int value;

static void read_lock(void)
{
    int seen = atomic_load(&state);

    while (seen < 0 || !atomic_compare_exchange_weak(&state, &seen, seen + 1)) {
        if (seen < 0)
            seen = atomic_load(&state);
    }
}

static void read_unlock(void)
{
    atomic_fetch_sub(&state, 1);
}

static void write_lock(void)
{
#ifdef MENDED
    int none = 0;

    while (!atomic_compare_exchange_weak(&state, &none, -1))
        none = 0;
#else
    while (atomic_load(&state) != 0)
        ;
    atomic_store(&state, -1);
#endif
}

static void write_unlock(void)
{
    atomic_store(&state, 0);
}

static void *reader(void *unused)
{
    read_lock();
    assert(!atomic_load(&writing));
    read_unlock();
    return NULL;
}

static void *writer(void *unused)
{
    write_lock();
    atomic_store(&writing, 1);
    value++;
    atomic_store(&writing, 0);
    write_unlock();
    return NULL;
}

int main(void)
{
    pthread_t r, w;

    pthread_create(&r, NULL, reader, NULL);
    pthread_create(&w, NULL, writer, NULL);
    pthread_join(r, NULL);
    pthread_join(w, NULL);
    return 0;
}
