/* A fifo in the style of the kernel's: in and out only grow, and the mask finds the slot.
 * BROKEN: the write barrier before the store to in is missing, so the reader may see in before the element. */
#include <assert.h>
#include <pthread.h>
#include <stddef.h>
#include <stdio.h>

#define READ_ONCE(x) (*(const volatile typeof(x) *)&(x))
#define WRITE_ONCE(x, v) (*(volatile typeof(x) *)&(x) = (v))
#define smp_mb() __atomic_thread_fence(__ATOMIC_SEQ_CST)
#define smp_rmb() __atomic_thread_fence(__ATOMIC_ACQUIRE)
#ifdef BROKEN
#define smp_wmb() do { } while (0)
#else
#define smp_wmb() __atomic_thread_fence(__ATOMIC_RELEASE)
#endif

struct kfifo {
    unsigned int in;
    unsigned int out;
    unsigned int mask;
    long *data;
};

static long storage[2];
static struct kfifo fifo = { .mask = 1, .data = storage };

static inline unsigned int kfifo_unused(struct kfifo *f)
{
    return (f->mask + 1) - (READ_ONCE(f->in) - READ_ONCE(f->out));
}

static unsigned int kfifo_in(struct kfifo *f, long value)
{
    if (!kfifo_unused(f))
        return 0;
    smp_mb();
    WRITE_ONCE(f->data[f->in & f->mask], value);
    smp_wmb();
    WRITE_ONCE(f->in, f->in + 1);
    return 1;
}

static unsigned int kfifo_out(struct kfifo *f, long *value)
{
    if (READ_ONCE(f->in) == f->out)
        return 0;
    smp_rmb();
    *value = READ_ONCE(f->data[f->out & f->mask]);
    smp_mb();
    WRITE_ONCE(f->out, f->out + 1);
    return 1;
}

static void *writer(void *arg)
{
    struct kfifo *f = arg;
    unsigned int done = 0;

    for (long i = 1; i <= 2; i++)
        done += kfifo_in(f, i * 10);
    assert(done == 2);
    return NULL;
}

static void *reader(void *arg)
{
    struct kfifo *f = arg;
    long value = 0;

    if (kfifo_out(f, &value)) {
        assert(value == 10);
        if (kfifo_out(f, &value))
            assert(value == 20);
    }
    printf("read %ld\n", value);
    return NULL;
}

int main(void)
{
    pthread_t r, w;

    pthread_create(&w, NULL, writer, &fifo);
    pthread_create(&r, NULL, reader, &fifo);
    pthread_join(w, NULL);
    pthread_join(r, NULL);
    return 0;
}
