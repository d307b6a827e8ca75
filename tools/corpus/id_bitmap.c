/* Numbers are given out by a bitmap.
 * BROKEN: a free bit is found and then set, but nobody looks whether it was still free. Two threads get the same number. */
#include <assert.h>
#include <pthread.h>
#include <stdint.h>
#include <stddef.h>

#define MAX_IDS 4
#define BIT(n) (UINT32_C(1) << (n))

static uint32_t used = BIT(0);

static int id_get(uint32_t *map)
{
    for (int id = 0; id < MAX_IDS; id++) {
        if (__atomic_load_n(map, __ATOMIC_RELAXED) & BIT(id))
            continue;
#ifdef BROKEN
        __sync_fetch_and_or(map, BIT(id));
        return id;
#else
        if (!(__sync_fetch_and_or(map, BIT(id)) & BIT(id)))
            return id;
#endif
    }
    return -1;
}

static void id_put(uint32_t *map, int id)
{
    uint32_t old = __sync_fetch_and_and(map, ~BIT(id));

    assert(old & BIT(id));
}

static void *worker(void *arg)
{
    int *id = arg;

    *id = id_get(&used);
    assert(*id > 0);
    id_put(&used, *id);
    return NULL;
}

int main(void)
{
    int ids[2];
    pthread_t t[2];

    for (int i = 0; i < 2; i++)
        pthread_create(&t[i], NULL, worker, &ids[i]);
    for (int i = 0; i < 2; i++)
        pthread_join(t[i], NULL);
    assert(used == BIT(0));
    return 0;
}
