/* Dining philosophers who enter a room before they take their forks.
 * BROKEN: the room has as many chairs as there are philosophers. Each takes the left fork and waits for the right one. */
#include <assert.h>
#include <pthread.h>
#include <semaphore.h>
#include <stddef.h>

#define SEATS 3

struct philosopher {
    pthread_mutex_t *left, *right;
    int meals;
    pthread_t thread;
};

static sem_t room;
static pthread_mutex_t forks[SEATS] = { PTHREAD_MUTEX_INITIALIZER, PTHREAD_MUTEX_INITIALIZER, PTHREAD_MUTEX_INITIALIZER };
static struct philosopher table[SEATS];

static void *dine(void *arg)
{
    struct philosopher *p = arg;

    sem_wait(&room);
    pthread_mutex_lock(p->left);
    pthread_mutex_lock(p->right);
    p->meals++;
    pthread_mutex_unlock(p->right);
    pthread_mutex_unlock(p->left);
    sem_post(&room);
    return NULL;
}

int main(void)
{
    int meals = 0;

#ifdef BROKEN
    sem_init(&room, 0, SEATS);
#else
    sem_init(&room, 0, SEATS - 1);
#endif
    for (int i = 0; i < SEATS; i++) {
        table[i].left = &forks[i];
        table[i].right = &forks[(i + 1) % SEATS];
    }
    for (int i = 0; i < SEATS; i++)
        pthread_create(&table[i].thread, NULL, dine, &table[i]);
    for (int i = 0; i < SEATS; i++) {
        pthread_join(table[i].thread, NULL);
        meals += table[i].meals;
    }
    assert(meals == SEATS);
    return 0;
}
