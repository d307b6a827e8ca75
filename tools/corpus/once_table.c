/* A table of squares that is filled at its first use.
 * BROKEN: the first thread takes a flag and fills the table, but the second one doesn't wait until it is full. */
#include <assert.h>
#include <pthread.h>
#include <stdatomic.h>
#include <stdbool.h>
#include <stddef.h>

enum { ENTRIES = 2 };

static atomic_int squares[ENTRIES];

static void fill_table(void)
{
    for (int i = 0; i < ENTRIES; i++)
        atomic_store_explicit(&squares[i], (i + 2) * (i + 2), memory_order_relaxed);
}

#ifdef BROKEN
static atomic_bool is_taken;

static void ensure_table(void)
{
    if (!atomic_exchange(&is_taken, true))
        fill_table();
}
#else
static pthread_once_t table_once = PTHREAD_ONCE_INIT;

static void ensure_table(void)
{
    pthread_once(&table_once, fill_table);
}
#endif

static int square_of(int n)
{
    ensure_table();
    return atomic_load_explicit(&squares[n - 2], memory_order_relaxed);
}

static void *worker(void *arg)
{
    int n = *(const int *)arg;

    assert(square_of(n) == n * n);
    return NULL;
}

int main(void)
{
    static const int numbers[2] = { 2, 3 };
    pthread_t t[2];

    for (int i = 0; i < 2; i++)
        pthread_create(&t[i], NULL, worker, (void *)&numbers[i]);
    for (int i = 0; i < 2; i++)
        pthread_join(t[i], NULL);
    return 0;
}
