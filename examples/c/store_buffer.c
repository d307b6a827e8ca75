/* Two threads raise a flag each and look at the other's. With relaxed accesses both may miss. */
#include <assert.h>
#include <pthread.h>
#include <stdatomic.h>
#include <stddef.h>

#ifdef MENDED
#define ORDER memory_order_seq_cst
#else
#define ORDER memory_order_relaxed
#endif

static atomic_int flag[2];
static int missed[2];

static void look(int me)
{
    atomic_store_explicit(&flag[me], 1, ORDER);
    missed[me] = !atomic_load_explicit(&flag[1 - me], ORDER);
}

static void *left(void *unused)
{
    look(0);
    return NULL;
}

static void *right(void *unused)
{
    look(1);
    return NULL;
}

int main(void)
{
    pthread_t a, b;

    pthread_create(&a, NULL, left, NULL);
    pthread_create(&b, NULL, right, NULL);
    pthread_join(a, NULL);
    pthread_join(b, NULL);
    assert(!(missed[0] && missed[1]));
    return 0;
}
