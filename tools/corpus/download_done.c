/* One thread waits until another one has loaded something.
 * BROKEN: the flag is set without the mutex. The waiter has seen it unset, the signal comes before the wait, and is lost. */
#include <assert.h>
#include <stdatomic.h>
#include <stdbool.h>
#include <stddef.h>
#include <threads.h>

typedef struct download {
    mtx_t lock;
    cnd_t finished;
    atomic_bool done;
    size_t bytes;
} download;

static download image;

static int loader(void *arg)
{
    download *d = arg;

    d->bytes = 512;
#ifdef BROKEN
    atomic_store(&d->done, true);
    cnd_signal(&d->finished);
#else
    mtx_lock(&d->lock);
    atomic_store(&d->done, true);
    cnd_signal(&d->finished);
    mtx_unlock(&d->lock);
#endif
    return 0;
}

static size_t await_download(download *d)
{
    mtx_lock(&d->lock);
    while (!atomic_load(&d->done))
        cnd_wait(&d->finished, &d->lock);
    mtx_unlock(&d->lock);
    return d->bytes;
}

int main(void)
{
    thrd_t t;
    int result;

    mtx_init(&image.lock, mtx_plain);
    cnd_init(&image.finished);
    thrd_create(&t, loader, &image);
    assert(await_download(&image) == 512);
    thrd_join(t, &result);
    assert(result == 0);
    cnd_destroy(&image.finished);
    mtx_destroy(&image.lock);
    return 0;
}
