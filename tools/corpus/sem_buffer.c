/* A bounded buffer by two semaphores and a mutex.
 * BROKEN: get takes the mutex before it waits for an item. The consumer comes first and sleeps with the mutex, which the producer wants. */
#include <assert.h>
#include <pthread.h>
#include <semaphore.h>
#include <stddef.h>
#include <stdint.h>

#define CAPACITY 2

struct buffer {
    sem_t slots, items;
    pthread_mutex_t lock;
    size_t first, count;
    int16_t data[CAPACITY];
};

static struct buffer buffer = { .lock = PTHREAD_MUTEX_INITIALIZER };

static void put(struct buffer *b, int16_t value)
{
    sem_wait(&b->slots);
    pthread_mutex_lock(&b->lock);
    b->data[(b->first + b->count) % CAPACITY] = value;
    b->count++;
    pthread_mutex_unlock(&b->lock);
    sem_post(&b->items);
}

static int16_t get(struct buffer *b)
{
    int16_t value;

#ifdef BROKEN
    pthread_mutex_lock(&b->lock);
    sem_wait(&b->items);
#else
    sem_wait(&b->items);
    pthread_mutex_lock(&b->lock);
#endif
    value = b->data[b->first];
    b->first = (b->first + 1) % CAPACITY;
    b->count--;
    pthread_mutex_unlock(&b->lock);
    sem_post(&b->slots);
    return value;
}

static void *producer(void *arg)
{
    struct buffer *b = arg;

    put(b, -5);
    put(b, -6);
    return NULL;
}

int main(void)
{
    pthread_t p;

    sem_init(&buffer.slots, 0, CAPACITY);
    sem_init(&buffer.items, 0, 0);
    pthread_create(&p, NULL, producer, &buffer);
    assert(get(&buffer) == -5);
    assert(get(&buffer) == -6);
    pthread_join(p, NULL);
    return 0;
}
