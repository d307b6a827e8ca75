/* A rate limiter: the tokens and the time of the last refill are in one struct of 64 bits that is exchanged as a whole.
 * BROKEN: the new state is stored, not exchanged. Two threads spend the same token. */
#include <assert.h>
#include <pthread.h>
#include <stdatomic.h>
#include <stdbool.h>
#include <stddef.h>
#include <stdint.h>

struct bucket {
    uint32_t tokens;
    uint32_t refilled;
};
_Static_assert(sizeof(struct bucket) == sizeof(uint64_t), "one exchange");

static _Atomic(struct bucket) bucket;

static bool take(uint32_t now)
{
    struct bucket old = atomic_load(&bucket), new;

    do {
        new = old;
        if (now > old.refilled) {
            new.refilled = now;
            new.tokens = 1;
        }
        if (new.tokens == 0)
            return false;
        new.tokens--;
#ifdef BROKEN
        atomic_store(&bucket, new);
        break;
#endif
    } while (!atomic_compare_exchange_weak(&bucket, &old, new));
    return true;
}

static void *client(void *arg)
{
    bool *allowed = arg;

    *allowed = take(1);
    return NULL;
}

int main(void)
{
    static bool allowed[2];
    pthread_t t[2];

    atomic_init(&bucket, ((struct bucket){ .tokens = 0, .refilled = 0 }));
    for (int i = 0; i < 2; i++)
        pthread_create(&t[i], NULL, client, &allowed[i]);
    for (int i = 0; i < 2; i++)
        pthread_join(t[i], NULL);
    assert(allowed[0] + allowed[1] == 1);
    return 0;
}
