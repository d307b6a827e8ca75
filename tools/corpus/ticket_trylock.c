/* A ticket lock whose owner and next ticket are in one word of 32 bits, with a trylock.
 * BROKEN: trylock tests the word and then takes a ticket. Another thread takes one in between, and both are inside. */
#include <assert.h>
#include <pthread.h>
#include <stdatomic.h>
#include <stdbool.h>
#include <stdint.h>
#include <stddef.h>

#define NEXT_SHIFT 16
#define NEXT_ONE (UINT32_C(1) << NEXT_SHIFT)

static _Atomic(uint32_t) ticket;
static int balance;

static inline uint16_t owner_of(uint32_t word)
{
    return (uint16_t)word;
}

static inline uint16_t next_of(uint32_t word)
{
    return (uint16_t)(word >> NEXT_SHIFT);
}

static void ticket_lock(_Atomic(uint32_t) *lock)
{
    uint16_t mine = next_of(atomic_fetch_add_explicit(lock, NEXT_ONE, memory_order_relaxed));

    while (owner_of(atomic_load_explicit(lock, memory_order_acquire)) != mine)
        ;
}

static bool ticket_trylock(_Atomic(uint32_t) *lock)
{
    uint32_t old = atomic_load_explicit(lock, memory_order_relaxed);

    if (owner_of(old) != next_of(old))
        return false;
#ifdef BROKEN
    atomic_fetch_add_explicit(lock, NEXT_ONE, memory_order_acquire);
    return true;
#else
    return atomic_compare_exchange_strong_explicit(lock, &old, old + NEXT_ONE, memory_order_acquire, memory_order_relaxed);
#endif
}

static void ticket_unlock(_Atomic(uint32_t) *lock)
{
    /* Few holders, so the owner can't carry into the next ticket here. */
    atomic_fetch_add_explicit(lock, 1, memory_order_release);
}

static void *depositor(void *arg)
{
    (void)arg;
    ticket_lock(&ticket);
    balance += 2;
    ticket_unlock(&ticket);
    return NULL;
}

int main(void)
{
    pthread_t d;
    int paid = 2;

    pthread_create(&d, NULL, depositor, NULL);
    if (ticket_trylock(&ticket)) {
        balance += 5;
        ticket_unlock(&ticket);
        paid += 5;
    }
    pthread_join(d, NULL);
    assert(balance == paid);
    return 0;
}
