/* A sorted list with a lock for each node. A thread finds its place without locks, and then locks the node before it.
 * BROKEN: the place isn't checked again under the lock. Two threads insert behind the same node, and one entry is lost. */
#include <assert.h>
#include <limits.h>
#include <pthread.h>
#include <stdatomic.h>
#include <stdbool.h>
#include <stddef.h>

struct lnode {
    int key;
    atomic_bool marked;
    _Atomic(struct lnode *) next;
    pthread_mutex_t lock;
};

static struct lnode last = { .key = INT_MAX, .lock = PTHREAD_MUTEX_INITIALIZER };
static struct lnode first = { .key = INT_MIN, .next = &last, .lock = PTHREAD_MUTEX_INITIALIZER };
static struct lnode added[2] = {
    { .key = 1, .lock = PTHREAD_MUTEX_INITIALIZER },
    { .key = 2, .lock = PTHREAD_MUTEX_INITIALIZER },
};

static struct lnode *find(int key, struct lnode **before)
{
    struct lnode *pred = &first;
    struct lnode *curr = atomic_load_explicit(&pred->next, memory_order_acquire);

    while (curr->key < key) {
        pred = curr;
        curr = atomic_load_explicit(&curr->next, memory_order_acquire);
    }
    *before = pred;
    return curr;
}

static bool is_valid(struct lnode *pred, struct lnode *curr)
{
#ifdef BROKEN
    (void)curr;
    return !atomic_load_explicit(&pred->marked, memory_order_relaxed);
#else
    return !atomic_load_explicit(&pred->marked, memory_order_relaxed) &&
           atomic_load_explicit(&pred->next, memory_order_relaxed) == curr;
#endif
}

static bool add(struct lnode *n)
{
    for (;;) {
        struct lnode *pred, *curr = find(n->key, &pred);
        bool done = false;

        pthread_mutex_lock(&pred->lock);
        if (is_valid(pred, curr)) {
            done = curr->key != n->key;
            if (done) {
                atomic_store_explicit(&n->next, curr, memory_order_relaxed);
                atomic_store_explicit(&pred->next, n, memory_order_release);
            }
            pthread_mutex_unlock(&pred->lock);
            return done;
        }
        pthread_mutex_unlock(&pred->lock);
    }
}

static bool contains(int key)
{
    struct lnode *pred, *curr = find(key, &pred);

    return curr->key == key && !atomic_load(&curr->marked);
}

static void *adder(void *arg)
{
    add(arg);
    return NULL;
}

int main(void)
{
    pthread_t t[2];

    for (int i = 0; i < 2; i++)
        pthread_create(&t[i], NULL, adder, &added[i]);
    for (int i = 0; i < 2; i++)
        pthread_join(t[i], NULL);
    assert(contains(1));
    assert(contains(2));
    return 0;
}
