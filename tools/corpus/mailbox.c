/* A mailbox for one letter between two threads, with a state that both watch.
 * BROKEN: the receiver marks the box as empty before it takes the letter out. The sender puts in the second letter, and the first
 * is lost. */
#include <assert.h>
#include <pthread.h>
#include <sched.h>
#include <stdatomic.h>
#include <stddef.h>
#include <stdint.h>

enum box_state { BOX_EMPTY, BOX_FULL };

struct letter {
    uint8_t number;
};

struct mailbox {
    _Atomic enum box_state state;
    const struct letter *letter;
};

struct post {
    struct mailbox *box;
    const struct letter *letters;
    size_t count;
};

static void box_send(struct mailbox *box, const struct letter *letter)
{
    while (atomic_load_explicit(&box->state, memory_order_acquire) != BOX_EMPTY)
        sched_yield();
    box->letter = letter;
    atomic_store_explicit(&box->state, BOX_FULL, memory_order_release);
}

static const struct letter *box_receive(struct mailbox *box)
{
    const struct letter *letter;

    while (atomic_load_explicit(&box->state, memory_order_acquire) != BOX_FULL)
        sched_yield();
#ifdef BROKEN
    atomic_store_explicit(&box->state, BOX_EMPTY, memory_order_release);
    letter = box->letter;
#else
    letter = box->letter;
    atomic_store_explicit(&box->state, BOX_EMPTY, memory_order_release);
#endif
    return letter;
}

static void *sender(void *arg)
{
    struct post *p = arg;

    for (size_t i = 0; i < p->count; i++)
        box_send(p->box, &p->letters[i]);
    return NULL;
}

int main(void)
{
    static const struct letter letters[2] = { { 1 }, { 2 } };
    static struct mailbox box;
    struct post post = { .box = &box, .letters = letters, .count = 2 };
    pthread_t s;

    pthread_create(&s, NULL, sender, &post);
    const struct letter *first = box_receive(&box);
    assert(first->number == 1);
    pthread_join(s, NULL);
    return 0;
}
