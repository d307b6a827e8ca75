/* A log of records: a writer reserves one by a counter, fills it in, and commits it by a flag.
 * BROKEN: the flag is stored relaxed. The reader finds a record that is committed and empty. */
#include <assert.h>
#include <pthread.h>
#include <stdatomic.h>
#include <stdbool.h>
#include <stddef.h>
#include <stdint.h>

#define RECORDS 2

struct record {
    uint16_t length;
    uint8_t level;
    atomic_bool committed;
};

struct log {
    atomic_size_t reserved;
    struct record records[RECORDS];
};

static struct log log;

static struct record *log_reserve(struct log *l)
{
    size_t at = atomic_fetch_add_explicit(&l->reserved, 1, memory_order_relaxed);

    return at < RECORDS ? &l->records[at] : NULL;
}

static void log_commit(struct record *r)
{
#ifdef BROKEN
    atomic_store_explicit(&r->committed, true, memory_order_relaxed);
#else
    atomic_store_explicit(&r->committed, true, memory_order_release);
#endif
}

static void *writer(void *arg)
{
    struct record *r = log_reserve(&log);

    if (!r)
        return NULL;
    r->length = *(uint16_t *)arg;
    r->level = 2;
    log_commit(r);
    return NULL;
}

int main(void)
{
    uint16_t lengths[2] = { 10, 300 };
    pthread_t t[2];

    for (int i = 0; i < 2; i++)
        pthread_create(&t[i], NULL, writer, &lengths[i]);
    for (size_t i = 0; i < RECORDS; i++) {
        const struct record *r = &log.records[i];

        if (!atomic_load_explicit(&r->committed, memory_order_acquire))
            continue;
        assert(r->length == 10 || r->length == 300);
        assert(r->level == 2);
    }
    for (int i = 0; i < 2; i++)
        pthread_join(t[i], NULL);
    return 0;
}
