/* A spin lock of an atomic_flag that is cleared with a relaxed store. */
#include <assert.h>
#include <pthread.h>
#include <stdatomic.h>
#include <stddef.h>

#ifdef MENDED
#define CLEAR memory_order_release
#else
#define CLEAR memory_order_relaxed
#endif

static atomic_flag taken = ATOMIC_FLAG_INIT;
static int sum;

static void *add(void *unused)
{
    while (atomic_flag_test_and_set_explicit(&taken, memory_order_acquire))
        ;
    sum++;
    atomic_flag_clear_explicit(&taken, CLEAR);
    return NULL;
}

int main(void)
{
    pthread_t a, b;

    pthread_create(&a, NULL, add, NULL);
    pthread_create(&b, NULL, add, NULL);
    pthread_join(a, NULL);
    pthread_join(b, NULL);
    assert(sum == 2);
    return 0;
}
