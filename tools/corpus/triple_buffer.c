/* Three frames between a renderer and a display, which swap them by exchanging an index; a bit says that the frame is new.
 * BROKEN: the renderer publishes by a load and a store. The display takes a frame in between, and both own it. */
#include <assert.h>
#include <pthread.h>
#include <stdatomic.h>
#include <stdbool.h>
#include <stddef.h>
#include <stdint.h>

#define INDEX 3u
#define FRESH 4u

struct frame {
    int top, bottom;
};

static struct frame frames[3];
static _Atomic(uint8_t) middle = 1;

struct renderer {
    uint8_t back;
};

static void publish(struct renderer *r)
{
#ifdef BROKEN
    uint8_t old = atomic_load_explicit(&middle, memory_order_acquire);

    atomic_store_explicit(&middle, (uint8_t)(r->back | FRESH), memory_order_release);
#else
    uint8_t old = atomic_exchange_explicit(&middle, (uint8_t)(r->back | FRESH), memory_order_acq_rel);
#endif
    r->back = old & INDEX;
}

static bool refresh(uint8_t *front)
{
    if (!(atomic_load_explicit(&middle, memory_order_relaxed) & FRESH))
        return false;
    *front = atomic_exchange_explicit(&middle, *front, memory_order_acq_rel) & INDEX;
    return true;
}

static void *render(void *arg)
{
    struct renderer *r = arg;

    for (int n = 1; n <= 3; n++) {
        struct frame *f = &frames[r->back];

        f->top = n;
        f->bottom = n;
        publish(r);
    }
    return NULL;
}

static void *display(void *arg)
{
    uint8_t front = 0;

    (void)arg;
    if (refresh(&front)) {
        struct frame *f = &frames[front];
        int top = f->top, bottom = f->bottom;

        assert(top == bottom);
    }
    return NULL;
}

int main(void)
{
    struct renderer r = { .back = 2 };
    pthread_t a, b;

    pthread_create(&a, NULL, render, &r);
    pthread_create(&b, NULL, display, NULL);
    pthread_join(a, NULL);
    pthread_join(b, NULL);
    return 0;
}
