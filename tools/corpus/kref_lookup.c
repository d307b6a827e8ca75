/* An object is found in a table under a lock. The last put takes it out of the table under the same lock, and frees it.
 * BROKEN: lookup takes a reference without the test that the count isn't zero. The last put is already on its way, and frees the object. */
#include <assert.h>
#include <pthread.h>
#include <stdbool.h>
#include <stddef.h>
#include <stdlib.h>

struct kref {
    unsigned refcount;
};

struct session {
    int id;
    struct kref ref;
};

static pthread_mutex_t table_lock = PTHREAD_MUTEX_INITIALIZER;
static struct session *table;

#define container_of(ptr, type, member) ({                     \
    const typeof(((type *)0)->member) *member_ptr = (ptr);     \
    (type *)((char *)member_ptr - offsetof(type, member)); })

static bool kref_get_unless_zero(struct kref *k)
{
    unsigned old = __atomic_load_n(&k->refcount, __ATOMIC_RELAXED);

    do {
        if (!old)
            return false;
    } while (!__atomic_compare_exchange_n(&k->refcount, &old, old + 1, true, __ATOMIC_RELAXED, __ATOMIC_RELAXED));
    return true;
}

static bool kref_get(struct kref *k)
{
    __atomic_fetch_add(&k->refcount, 1, __ATOMIC_RELAXED);
    return true;
}

static void session_release(struct kref *k)
{
    struct session *s = container_of(k, struct session, ref);

    pthread_mutex_lock(&table_lock);
    table = NULL;
    pthread_mutex_unlock(&table_lock);
    free(s);
}

static void kref_put(struct kref *k, void (*release)(struct kref *))
{
    if (__atomic_sub_fetch(&k->refcount, 1, __ATOMIC_ACQ_REL) == 0)
        release(k);
}

static struct session *lookup(bool (*get)(struct kref *))
{
    struct session *s;

    pthread_mutex_lock(&table_lock);
    s = table;
    if (s && !get(&s->ref))
        s = NULL;
    pthread_mutex_unlock(&table_lock);
    return s;
}

static void *user(void *arg)
{
#ifdef BROKEN
    struct session *s = lookup(kref_get);
    (void)kref_get_unless_zero;
#else
    struct session *s = lookup(kref_get_unless_zero);
    (void)kref_get;
#endif
    (void)arg;
    if (s) {
        assert(s->id == 42);
        kref_put(&s->ref, session_release);
    }
    return NULL;
}

int main(void)
{
    struct session *s = malloc(sizeof(*s));
    pthread_t u;

    s->id = 42;
    s->ref.refcount = 1;
    table = s;
    pthread_create(&u, NULL, user, NULL);
    kref_put(&s->ref, session_release);
    pthread_join(u, NULL);
    return 0;
}
