/* A pointer to the current route is published to readers that take no lock.
 * BROKEN: the pointer is published by WRITE_ONCE, without the release of rcu_assign_pointer. A reader sees it before the new
 * route's hop. */
#include <assert.h>
#include <pthread.h>
#include <stddef.h>
#include <stdint.h>
#include <stdio.h>
#include <stdlib.h>
#include <string.h>

#define WRITE_ONCE(x, v) __atomic_store_n(&(x), (v), __ATOMIC_RELAXED)
#define rcu_dereference(p) __atomic_load_n(&(p), __ATOMIC_ACQUIRE)
#ifdef BROKEN
#define rcu_assign_pointer(p, v) WRITE_ONCE(p, v)
#else
#define rcu_assign_pointer(p, v) __atomic_store_n(&(p), (v), __ATOMIC_RELEASE)
#endif

struct route {
    uint32_t hop;
    uint8_t is_up : 1;
    uint8_t metric : 7;
};

static struct route *route;

static struct route *route_new(uint32_t hop)
{
    struct route *r = malloc(sizeof(*r));

    if (!r)
        abort();
    memset(r, 0, sizeof(*r));
    r->hop = hop;
    r->is_up = 1;
    return r;
}

static void *packet(void *arg)
{
    struct route *r = rcu_dereference(route);

    (void)arg;
    if (r) {
        assert(r->hop != 0);
        printf("by %u\n", (unsigned)r->hop);
    }
    return NULL;
}

int main(void)
{
    struct route *r;
    pthread_t p;

    pthread_create(&p, NULL, packet, NULL);
    r = route_new(9);
    rcu_assign_pointer(route, r);
    pthread_join(p, NULL);
    free(r);
    return 0;
}
