/* A request that its owner makes, hands to a device, waits for and frees.
 * BROKEN: the device writes its status into the request after it has said that the request is done. The owner has freed it. */
#include <assert.h>
#include <pthread.h>
#include <sched.h>
#include <stdbool.h>
#include <stddef.h>
#include <stdint.h>
#include <stdlib.h>

struct completion {
    uint8_t done;
};

struct request {
    uint64_t sector;
    int16_t status;
    struct completion completion;
};

static struct request *submitted;

static void complete(struct completion *c)
{
    __atomic_store_n(&c->done, true, __ATOMIC_RELEASE);
}

static void wait_for_completion(struct completion *c)
{
    while (!__atomic_load_n(&c->done, __ATOMIC_ACQUIRE))
        sched_yield();
}

static void *device(void *arg)
{
    struct request *r;

    (void)arg;
    while (!(r = __atomic_load_n(&submitted, __ATOMIC_ACQUIRE)))
        sched_yield();
#ifdef BROKEN
    complete(&r->completion);
    r->status = r->sector < 100 ? 0 : -5;
#else
    r->status = r->sector < 100 ? 0 : -5;
    complete(&r->completion);
#endif
    return NULL;
}

int main(void)
{
    pthread_t d;
    struct request *r = calloc(1, sizeof(struct request));

    pthread_create(&d, NULL, device, NULL);
    r->sector = 7;
    __atomic_store_n(&submitted, r, __ATOMIC_RELEASE);
    wait_for_completion(&r->completion);
    assert(r->status == 0);
    free(r);
    pthread_join(d, NULL);
    return 0;
}
