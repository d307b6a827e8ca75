/* A tree of a root and a child. The writer makes a changed copy of the child and swings the root's pointer to it.
 * BROKEN: there is no write barrier between the copy and the store of the pointer, so that a reader meets a child without its key. */
#include <assert.h>
#include <pthread.h>
#include <stddef.h>
#include <stdlib.h>

#define smp_wmb() __atomic_thread_fence(__ATOMIC_RELEASE)
#define READ_ONCE(x) (*(const volatile typeof(x) *)&(x))
#define WRITE_ONCE(x, v) (*(volatile typeof(x) *)&(x) = (v))

struct tnode {
    int key;
    unsigned colour;
    struct tnode *child[2];
};

static struct tnode *root;

static struct tnode *tnode_new(int key)
{
    struct tnode *n = calloc(1, sizeof(*n));

    WRITE_ONCE(n->key, key);
    return n;
}

static struct tnode *find(struct tnode *from, int key)
{
    while (from && READ_ONCE(from->key) != key)
        from = __atomic_load_n(&from->child[READ_ONCE(from->key) < key], __ATOMIC_ACQUIRE);
    return from;
}

static struct tnode *recolour_left(struct tnode *parent)
{
    struct tnode *old = parent->child[0];
    struct tnode *copy = tnode_new(old->key);

    copy->colour = !old->colour;
#ifndef BROKEN
    smp_wmb();
#endif
    WRITE_ONCE(parent->child[0], copy);
    return old;
}

static void *searcher(void *arg)
{
    int key = *(int *)arg;

    assert(find(root, key) != NULL);
    return NULL;
}

int main(void)
{
    struct tnode *old;
    int key = 10;
    pthread_t s;

    root = tnode_new(20);
    root->child[0] = tnode_new(10);
    pthread_create(&s, NULL, searcher, &key);
    old = recolour_left(root);
    pthread_join(s, NULL);
    free(old);
    free(root->child[0]);
    free(root);
    return 0;
}
