/* A list that readers walk inside read-side sections. The writer unlinks an entry, waits for the readers, and frees it.
 * BROKEN: the entry is freed before the wait. A reader that has reached it reads its key after free. */
#include <assert.h>
#include <pthread.h>
#include <stddef.h>
#include <stdint.h>
#include <stdlib.h>

#define container_of(ptr, type, member) ((type *)((char *)(ptr) - offsetof(type, member)))
#define READ_ONCE(x) __atomic_load_n(&(x), __ATOMIC_RELAXED)
#define WRITE_ONCE(x, v) __atomic_store_n(&(x), (v), __ATOMIC_RELAXED)
#define smp_mb() __atomic_thread_fence(__ATOMIC_SEQ_CST)
#define rcu_dereference(p) __atomic_load_n(&(p), __ATOMIC_ACQUIRE)
#define rcu_assign_pointer(p, v) __atomic_store_n(&(p), (v), __ATOMIC_RELEASE)

struct list_head {
    struct list_head *next;
};

struct entry {
    uint32_t key;
    struct list_head link;
};

static struct list_head list = { .next = &list };
static int reader_nesting;

static inline void rcu_read_lock(void)
{
    WRITE_ONCE(reader_nesting, 1);
    smp_mb();
}

static inline void rcu_read_unlock(void)
{
    __atomic_store_n(&reader_nesting, 0, __ATOMIC_RELEASE);
}

static void synchronize_rcu(void)
{
    smp_mb();
    while (__atomic_load_n(&reader_nesting, __ATOMIC_ACQUIRE))
        ;
}

static void list_add(struct list_head *entry, struct list_head *head)
{
    entry->next = head->next;
    rcu_assign_pointer(head->next, entry);
}

static void *walker(void *arg)
{
    struct list_head *pos;

    (void)arg;
    rcu_read_lock();
    for (pos = rcu_dereference(list.next); pos != &list; pos = rcu_dereference(pos->next)) {
        struct entry *e = container_of(pos, struct entry, link);

        assert(e->key == 1 || e->key == 2);
    }
    rcu_read_unlock();
    return NULL;
}

int main(void)
{
    struct entry *e[2];
    pthread_t w;

    for (uint32_t i = 0; i < 2; i++) {
        e[i] = malloc(sizeof(**e));
        e[i]->key = i + 1;
        list_add(&e[i]->link, &list);
    }
    pthread_create(&w, NULL, walker, NULL);

    /* The list is e[1], e[0]. */
    rcu_assign_pointer(list.next, READ_ONCE(e[1]->link.next));
#ifdef BROKEN
    free(e[1]);
    synchronize_rcu();
#else
    synchronize_rcu();
    free(e[1]);
#endif
    pthread_join(w, NULL);
    free(e[0]);
    return 0;
}
