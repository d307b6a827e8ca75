/* The work-stealing deque of Chase and Lev. Its owner takes from the bottom, thieves take from the top. Without the fence between the
 * write of bottom and the read of top, owner and thief take one task both. */
#include <assert.h>
#include <pthread.h>
#include <stdatomic.h>
#include <stddef.h>
#include <stdint.h>

#define MASK 3
#define EMPTY 0

#ifdef MENDED
#define BETWEEN() atomic_thread_fence(memory_order_seq_cst)
#else
#define BETWEEN()
#endif

static atomic_int top, bottom;
static atomic_int task[MASK + 1];
static int stolen[2];

static void push(int what)
{
    int b = atomic_load_explicit(&bottom, memory_order_relaxed);

    atomic_store_explicit(&task[b & MASK], what, memory_order_relaxed);
    atomic_store_explicit(&bottom, b + 1, memory_order_release);
}

static int take(void)
{
    int b = atomic_load_explicit(&bottom, memory_order_relaxed) - 1;

    atomic_store_explicit(&bottom, b, memory_order_relaxed);
    BETWEEN();
    int t = atomic_load_explicit(&top, memory_order_relaxed);
    if (t > b) {
        atomic_store_explicit(&bottom, b + 1, memory_order_relaxed);
        return EMPTY;
    }
    int what = atomic_load_explicit(&task[b & MASK], memory_order_relaxed);
    if (t < b)
        return what;
    if (!atomic_compare_exchange_strong(&top, &t, t + 1))
        what = EMPTY;
    atomic_store_explicit(&bottom, b + 1, memory_order_relaxed);
    return what;
}

static int steal(void)
{
    int t = atomic_load_explicit(&top, memory_order_acquire);

    BETWEEN();
    int b = atomic_load_explicit(&bottom, memory_order_acquire);
    if (t >= b)
        return EMPTY;
    int what = atomic_load_explicit(&task[t & MASK], memory_order_relaxed);
    if (atomic_compare_exchange_strong(&top, &t, t + 1))
        return what;
    return EMPTY;
}

static void *thief(void *which)
{
    int me = (int)(intptr_t)which;

    stolen[me] = steal();
    return NULL;
}

int main(void)
{
    pthread_t a, b;

    push(1);
    push(2);
    pthread_create(&a, NULL, thief, (void *)(intptr_t)0);
    pthread_create(&b, NULL, thief, (void *)(intptr_t)1);
    int mine = take();
    pthread_join(a, NULL);
    pthread_join(b, NULL);
    assert(mine == EMPTY || (mine != stolen[0] && mine != stolen[1]));
    return 0;
}
