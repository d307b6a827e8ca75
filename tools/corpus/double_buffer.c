/* Two buffers: a reader pins the one in front, and the writer fills the other one, flips, and waits until the old one isn't pinned.
 * BROKEN: the reader's pin may still be in its store buffer when it looks at the front again, and the writer writes what it reads. */
#include <assert.h>
#include <pthread.h>
#include <stdatomic.h>
#include <stddef.h>

enum { UNPINNED = -1 };

#ifdef BROKEN
#define PIN memory_order_release
#else
#define PIN memory_order_seq_cst
#endif

static struct {
    long width, height;
} buffer[2] = { { 4, 4 }, { 4, 4 } };
static atomic_int front;
static atomic_int pinned = UNPINNED;

static int pin(void)
{
    int mine;

    do {
        mine = atomic_load(&front);
        atomic_store_explicit(&pinned, mine, PIN);
    } while (atomic_load(&front) != mine);
    return mine;
}

static void unpin(void)
{
    atomic_store_explicit(&pinned, UNPINNED, memory_order_release);
}

static void *reader(void *arg)
{
    int mine = pin();
    long width = buffer[mine].width;
    long height = buffer[mine].height;

    (void)arg;
    unpin();
    assert(width == height);
    return NULL;
}

static void *writer(void *arg)
{
    (void)arg;
    for (long size = 5; size <= 6; size++) {
        int back = !atomic_load_explicit(&front, memory_order_relaxed);

        while (atomic_load(&pinned) == back)
            ;
        buffer[back].width = size;
        buffer[back].height = size;
        atomic_store(&front, back);
    }
    return NULL;
}

int main(void)
{
    pthread_t r, w;

    pthread_create(&r, NULL, reader, NULL);
    pthread_create(&w, NULL, writer, NULL);
    pthread_join(r, NULL);
    pthread_join(w, NULL);
    return 0;
}
