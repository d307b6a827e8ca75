/* Lamport's bakery: a customer draws a number above all others, and waits for those with smaller ones.
 * BROKEN: nobody waits while another one is still drawing. Two draw the same number, and the second one's isn't written yet when the first
 * looks for it. */
#include <assert.h>
#include <pthread.h>
#include <stdatomic.h>
#include <stdbool.h>
#include <stddef.h>

#define N 2

static atomic_bool choosing[N];
static atomic_uint number[N];
static unsigned served;

static bool is_before(unsigned a, size_t i, unsigned b, size_t j)
{
    return a < b || (a == b && i < j);
}

static void bakery_lock(size_t me)
{
    unsigned most = 0;

    atomic_store(&choosing[me], true);
    for (size_t i = 0; i < N; i++) {
        unsigned seen = atomic_load(&number[i]);

        if (seen > most)
            most = seen;
    }
    atomic_store(&number[me], most + 1);
    atomic_store(&choosing[me], false);
    for (size_t i = 0; i < N; i++) {
        unsigned theirs;

        if (i == me)
            continue;
#ifndef BROKEN
        while (atomic_load(&choosing[i]))
            ;
#endif
        do {
            theirs = atomic_load(&number[i]);
        } while (theirs != 0 && is_before(theirs, i, most + 1, me));
    }
}

static void bakery_unlock(size_t me)
{
    atomic_store(&number[me], 0);
}

static void *customer(void *arg)
{
    size_t me = (size_t)arg;

    bakery_lock(me);
    served++;
    bakery_unlock(me);
    return NULL;
}

int main(void)
{
    pthread_t t[N];

    for (size_t i = 0; i < N; i++)
        pthread_create(&t[i], NULL, customer, (void *)i);
    for (size_t i = 0; i < N; i++)
        pthread_join(t[i], NULL);
    assert(served == N);
    return 0;
}
