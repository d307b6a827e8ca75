/* A message and a flag that says that it is there. A relaxed store of the flag may overtake the message. */
#include <assert.h>
#include <stdatomic.h>
#include <threads.h>

#ifdef MENDED
#define PUBLISH memory_order_release
#else
#define PUBLISH memory_order_relaxed
#endif

static int message;
static atomic_bool ready;

static int sender(void *unused)
{
    message = 42;
    atomic_store_explicit(&ready, 1, PUBLISH);
    return 0;
}

static int receiver(void *unused)
{
    if (atomic_load_explicit(&ready, memory_order_acquire))
        assert(message == 42);
    return 0;
}

int main(void)
{
    thrd_t s, r;

    thrd_create(&s, sender, 0);
    thrd_create(&r, receiver, 0);
    thrd_join(s, 0);
    thrd_join(r, 0);
    return 0;
}
