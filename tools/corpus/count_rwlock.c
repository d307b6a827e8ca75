/* A lock for readers and writers in one word: a bit for the writer, and a count of readers that also counts those who only try.
 * BROKEN: the writer unlocks by a store of 0. It wipes out the count of a reader that is about to give up, which then counts below 0. */
#include <assert.h>
#include <pthread.h>
#include <stdatomic.h>
#include <stdbool.h>
#include <stddef.h>
#include <stdint.h>

#define WRITER (UINT32_C(1) << 31)
#define READERS (WRITER - 1)

typedef struct {
    _Atomic(uint32_t) word;
} rwlock;

static rwlock lock;
static int value, shadow;

static bool try_read(rwlock *l)
{
    uint32_t old = atomic_fetch_add_explicit(&l->word, 1, memory_order_acquire);

    if (!(old & WRITER))
        return true;
    old = atomic_fetch_sub_explicit(&l->word, 1, memory_order_relaxed);
    assert((old & READERS) > 0);
    return false;
}

static void end_read(rwlock *l)
{
    uint32_t old = atomic_fetch_sub_explicit(&l->word, 1, memory_order_release);

    assert((old & READERS) > 0);
}

static void begin_write(rwlock *l)
{
    uint32_t none = 0;

    while (!atomic_compare_exchange_weak_explicit(&l->word, &none, WRITER, memory_order_acquire, memory_order_relaxed))
        none = 0;
}

static void end_write(rwlock *l)
{
#ifdef BROKEN
    atomic_store_explicit(&l->word, 0, memory_order_release);
#else
    atomic_fetch_and_explicit(&l->word, ~WRITER, memory_order_release);
#endif
}

static void *reader(void *arg)
{
    (void)arg;
    if (try_read(&lock)) {
        assert(value == shadow);
        end_read(&lock);
    }
    return NULL;
}

int main(void)
{
    pthread_t r;

    pthread_create(&r, NULL, reader, NULL);
    begin_write(&lock);
    value = 1;
    shadow = 1;
    end_write(&lock);
    pthread_join(r, NULL);
    assert(lock.word == 0);
    return 0;
}
