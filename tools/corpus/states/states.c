/* All states of a small C program under a memory model. The program is compiled by clang with -fsanitize=thread and loaded as a library;
 * this file has the functions that the compiler's instrumentation calls, and those of pthreads. Each thread is a fiber, each access of
 * memory that two threads use is a move, and so is each store that leaves a buffer. A state is kept by a hash of all memory and stacks.
 *
 *     states PROGRAM.so sc|tso|pso [reuse] [spurious] [trace]
 *
 * Not proved. A plain store is made by the program itself, after the call that announces it: while a thread runs, memory is as this thread
 * sees it, and afterwards its stores are moved to its buffer. */
#define _GNU_SOURCE
#include <dlfcn.h>
#include <errno.h>
#include <link.h>
#include <pthread.h>
#include <signal.h>
#include <stdbool.h>
#include <stdint.h>
#include <stdio.h>
#include <stdlib.h>
#include <string.h>
#include <sys/mman.h>

enum { THREADS = 5, ENTRIES = 16, BLOCKS = 12, HEAP = 1536, TLS = 128, STACK = 1 << 16, CLEARED = 2048 };
enum model { SC, TSO, PSO };
enum want { RUN, EMPTY, LOCK, WAIT, SIGNAL, JOIN, SEM, READLOCK, WRITELOCK, BARRIER, ONCE };

struct entry {
    char *at;
    uint32_t size; /* 0: a bar */
    uint32_t spare;
    uint8_t bytes[8];
};

struct thread {
    char *sp;
    void *(*function)(void *);
    void *argument, *result;
    int64_t is_alive;
    int32_t want, is_woken;
    void *on, *cond;
    int64_t choice, count;
    void *pc;
    struct entry buffer[ENTRIES];
};

struct block {
    char *at;
    uint64_t size;
    int64_t is_live;
};

static struct world {
    int64_t threads, blocks, used, freed;
    struct thread thread[THREADS];
    struct block block[BLOCKS];
    char heap[HEAP] __attribute__((aligned(16)));
    char tls[THREADS][TLS] __attribute__((aligned(16)));
    uint64_t is_set[THREADS]; /* which thread-local variables have their first value */
} w;

static char *globals, *stacks;
static size_t globals_size;
static enum model model;
static bool is_reuse, is_spurious, is_trace;
static uint8_t *touched_globals, touched_heap[HEAP], touched_tls[THREADS][TLS], *touched_stacks;
static bool is_again, has_failed;
static char failure[300];
static int current, silent;
static char *explorer_sp;

#define LATE 0x40
#define SHARED 0x80

void fiber_swap(char **save, char *load);
__asm__(".text\nfiber_swap:\n push %rbp\n push %rbx\n push %r12\n push %r13\n push %r14\n push %r15\n mov %rsp,(%rdi)\n mov %rsi,%rsp\n"
        " pop %r15\n pop %r14\n pop %r13\n pop %r12\n pop %rbx\n pop %rbp\n ret\n");

static void leave(void)
{
    silent = 0;
    fiber_swap(&w.thread[current].sp, explorer_sp);
}

static void ask(enum want want, void *on)
{
    w.thread[current].want = want;
    w.thread[current].on = on;
    leave();
}

static void fail(const char *what, long number)
{
    snprintf(failure, sizeof failure, "%s %ld", what, number);
    has_failed = true;
    leave();
    abort();
}

/* Which memory two threads use. It is found on the way, and then all begins again. */

static uint8_t *touched(const char *at)
{
    if (at >= globals && at < globals + globals_size)
        return touched_globals + (at - globals);
    if (at >= w.heap && at < w.heap + HEAP)
        return touched_heap + (at - w.heap);
    if (at >= w.tls[0] && at < w.tls[0] + sizeof w.tls)
        return touched_tls[0] + (at - w.tls[0]);
    if (at >= stacks && at < stacks + THREADS * STACK)
        return touched_stacks + (at - stacks);
    return NULL;
}

static bool touch(char *at, size_t size, bool is_write)
{
    bool is_shared = false;

    if ((uintptr_t)at < 4096)
        fail("null pointer", (long)at);
    for (size_t i = 0; i < size; i++) {
        uint8_t *it = touched(at + i);

        if (!it)
            continue;
        *it |= 1 << current | (is_write && w.threads > 1 ? LATE : 0);
        if (!(*it & SHARED) && *it & LATE && __builtin_popcount(*it & 0x3f) > 1) {
            *it |= SHARED;
            is_again = true;
        }
        is_shared |= (*it & SHARED) != 0;
    }
    /* A thread may spin on memory that isn't known to be shared yet. */
    if (!is_shared && ++silent > 300)
        ask(RUN, NULL);
    return is_shared;
}

static void check_block(char *at, size_t size)
{
    if (at < w.heap || at >= w.heap + HEAP)
        return;
    for (int i = 0; i < w.blocks; i++)
        if (at >= w.block[i].at && at + size <= w.block[i].at + w.block[i].size) {
            if (w.block[i].is_live != 1)
                fail("use after free of block", i);
            return;
        }
    fail("outside of all blocks", at - w.heap);
}

/* Store buffers. */

static struct { char *at; size_t size; uint8_t old[8]; } undo[ENTRIES + 4];
static int undos;
static struct { char *at; size_t size; } pending[1];
static int pendings;

static void keep_old(char *at, size_t size)
{
    undo[undos].at = at;
    undo[undos].size = size;
    memcpy(undo[undos++].old, at, size);
}

static void push(struct thread *t, char *at, size_t size, const void *bytes)
{
    struct entry *it = &t->buffer[t->count];

    if (size == 0 && t->count == 0)
        return;
    if (t->count == ENTRIES) {
        printf("a buffer is full\n");
        exit(2);
    }
    t->count++;
    it->at = at;
    it->size = size;
    if (size)
        memcpy(it->bytes, bytes, size);
}

static void drop(struct thread *t, int i)
{
    memmove(&t->buffer[i], &t->buffer[i + 1], (t->count - i - 1) * sizeof t->buffer[0]);
    memset(&t->buffer[--t->count], 0, sizeof t->buffer[0]);
    while (t->count && t->buffer[0].size == 0)
        drop(t, 0);
}

static bool may_drain(struct thread *t, int i)
{
    struct entry *it = &t->buffer[i];

    if (!it->size || (model == TSO && i))
        return false;
    for (int k = 0; k < i; k++) {
        struct entry *o = &t->buffer[k];
        if (!o->size || (o->at < it->at + it->size && it->at < o->at + o->size))
            return false;
    }
    return true;
}

/* Moves to the buffer what the program has stored since its thread went on. */
static void settle(void)
{
    for (int i = 0; i < pendings; i++)
        push(&w.thread[current], pending[i].at, pending[i].size, pending[i].at);
    pendings = 0;
}

/* Runs a thread until it asks for its next move. */
static void run(int number)
{
    struct thread *t = &w.thread[number];

    current = number;
    undos = pendings = 0;
    for (int i = 0; i < t->count; i++)
        if (t->buffer[i].size) {
            keep_old(t->buffer[i].at, t->buffer[i].size);
            memcpy(t->buffer[i].at, t->buffer[i].bytes, t->buffer[i].size);
        }
    memset(t->sp - CLEARED, 0, CLEARED);
    fiber_swap(&explorer_sp, t->sp);
    settle();
    while (undos--)
        memcpy(undo[undos].at, undo[undos].old, undo[undos].size);
}

static void plain(char *at, size_t size, bool is_write, void *pc)
{
    settle();
    w.thread[current].pc = pc;
    check_block(at, size);
    if (!touch(at, size, is_write))
        return;
    ask(RUN, NULL);
    check_block(at, size);
    if (is_write && model != SC) {
        keep_old(at, size);
        pending[pendings].at = at;
        pending[pendings++].size = size;
    }
}

/* A store by the runtime. Own buffer and memory as the thread sees it both take it. */
static void put(char *at, size_t size, const void *bytes)
{
    if (model != SC) {
        settle();
        keep_old(at, size);
        push(&w.thread[current], at, size, bytes);
    }
    memcpy(at, bytes, size);
}

#define PC __builtin_return_address(0)
#define PLAIN(n) \
    void __tsan_read##n(char *at) { plain(at, n, false, PC); } \
    void __tsan_write##n(char *at) { plain(at, n, true, PC); } \
    void __tsan_unaligned_read##n(char *at) { plain(at, n, false, PC); } \
    void __tsan_unaligned_write##n(char *at) { plain(at, n, true, PC); }
PLAIN(1) PLAIN(2) PLAIN(4) PLAIN(8)
void __tsan_init(void) {}
void __tsan_func_entry(void *pc) { (void)pc; }
void __tsan_func_exit(void) {}

static size_t piece_of(uintptr_t a, uintptr_t b, size_t n)
{
    for (size_t size = 8; size > 1; size /= 2)
        if (n >= size && (a | b) % size == 0)
            return size;
    return 1;
}

static void write_piece(char *to, size_t size, const void *bytes, void *pc)
{
    bool is_shared;

    w.thread[current].pc = pc;
    check_block(to, size);
    is_shared = touch(to, size, true);
    if (is_shared) {
        ask(RUN, NULL);
        check_block(to, size);
        put(to, size, bytes);
    } else {
        memcpy(to, bytes, size);
    }
}

void *mc_memset(char *to, int value, size_t n)
{
    uint8_t bytes[8];

    memset(bytes, value, 8);
    for (size_t i = 0, size; i < n; i += size) {
        size = piece_of((uintptr_t)to + i, 0, n - i);
        write_piece(to + i, size, bytes, PC);
    }
    return to;
}

void *mc_memcpy(char *to, char *from, size_t n)
{
    for (size_t i = 0, size; i < n; i += size) {
        uint8_t bytes[8];

        size = piece_of((uintptr_t)to + i, (uintptr_t)from + i, n - i);
        plain(from + i, size, false, PC);
        memcpy(bytes, from + i, size);
        write_piece(to + i, size, bytes, PC);
    }
    return to;
}

void *mc_memmove(char *to, char *from, size_t n)
{
    return mc_memcpy(to, from, n);
}

/* Atomic accesses. Those of memory that one thread uses are no moves, but they drain. */

static void atomic(char *at, size_t size, bool is_write, bool is_empty, void *pc)
{
    bool is_shared;

    settle();
    w.thread[current].pc = pc;
    check_block(at, size);
    is_shared = touch(at, size, is_write);
    if (is_shared || (is_empty && w.thread[current].count)) {
        ask(is_empty ? EMPTY : RUN, NULL);
        check_block(at, size);
    }
}

static void bar(void)
{
    settle();
    if (model == PSO)
        push(&w.thread[current], NULL, 0, NULL);
}

static void fence(void)
{
    settle();
    if (w.thread[current].count)
        ask(EMPTY, NULL);
}

void __tsan_atomic_thread_fence(int order)
{
    w.thread[current].pc = PC;
    if (order == __ATOMIC_SEQ_CST)
        fence();
    else if (order == __ATOMIC_RELEASE || order == __ATOMIC_ACQ_REL)
        bar();
}
void __tsan_atomic_signal_fence(int order) { (void)order; }

#define RMW(n, T, name, result) \
    T __tsan_atomic##n##_##name(T *at, T v, int order) \
    { \
        (void)order; \
        atomic((char *)at, sizeof(T), true, true, PC); \
        T old = *at; \
        *at = (T)(result); \
        return old; \
    }
#define ATOMIC(n, T) \
    T __tsan_atomic##n##_load(T *at, int order) \
    { \
        (void)order; \
        atomic((char *)at, sizeof(T), false, false, PC); \
        return *at; \
    } \
    void __tsan_atomic##n##_store(T *at, T v, int order) \
    { \
        atomic((char *)at, sizeof(T), true, false, PC); \
        if (order == __ATOMIC_RELEASE || order == __ATOMIC_SEQ_CST) \
            bar(); \
        put((char *)at, sizeof(T), &v); \
        if (order == __ATOMIC_SEQ_CST) \
            fence(); \
    } \
    T __tsan_atomic##n##_compare_exchange_val(T *at, T expected, T v, int order, int other) \
    { \
        (void)order; \
        (void)other; \
        atomic((char *)at, sizeof(T), true, true, PC); \
        T old = *at; \
        if (old == expected) \
            *at = v; \
        return old; \
    } \
    RMW(n, T, exchange, v) RMW(n, T, fetch_add, old + v) RMW(n, T, fetch_sub, old - v) RMW(n, T, fetch_and, old & v) \
    RMW(n, T, fetch_or, old | v) RMW(n, T, fetch_xor, old ^ v) RMW(n, T, fetch_nand, ~(old & v))
ATOMIC(8, uint8_t) ATOMIC(16, uint16_t) ATOMIC(32, uint32_t) ATOMIC(64, uint64_t)

/* The library. */

void mc___assert_fail(const char *text, const char *file, unsigned line, const char *function)
{
    char said[200];

    (void)file;
    (void)function;
    snprintf(said, sizeof said, "assert(%s) at line", text);
    fail(said, line);
}
void mc_abort(void) { fail("abort", 0); }
int mc_nothing(void) { return 0; }

static void *allocate(size_t size)
{
    ask(RUN, NULL);
    if (is_reuse)
        for (int i = 0, best = -1; i <= w.blocks; i++) {
            if (i == w.blocks) {
                if (best < 0)
                    break;
                w.block[best].is_live = 1;
                return w.block[best].at;
            }
            /* The one that was freed last: is_live holds minus the time. */
            if (w.block[i].is_live < 0 && w.block[i].size == size && (best < 0 || w.block[i].is_live < w.block[best].is_live))
                best = i;
        }
    if (w.blocks == BLOCKS || w.used + size + 16 > HEAP)
        fail("the heap is full", (long)size);
    struct block *it = &w.block[w.blocks++];
    it->at = w.heap + w.used;
    it->size = size;
    it->is_live = 1;
    w.used += (size + 31) / 16 * 16;
    memset(it->at, 0x5a, size);
    return it->at;
}

void *mc_malloc(size_t size)
{
    w.thread[current].pc = PC;
    return allocate(size);
}

void *mc_aligned_alloc(size_t align, size_t size)
{
    (void)align;
    return mc_malloc(size);
}

void *mc_calloc(size_t count, size_t size)
{
    w.thread[current].pc = PC;
    char *it = allocate(count * size);
    memset(it, 0, count * size);
    return it;
}

void mc_free(char *at)
{
    w.thread[current].pc = PC;
    if (!at)
        return;
    ask(RUN, NULL);
    for (int i = 0; i < w.blocks; i++)
        if (w.block[i].at == at) {
            if (w.block[i].is_live != 1)
                fail("second free of block", i);
            w.block[i].is_live = is_reuse ? -++w.freed : 0;
            touch(at, w.block[i].size, true);
            return;
        }
    fail("free of what wasn't allocated", at - w.heap);
}

struct emutls { size_t size, align; void *object; void *first; };

void *mc___emutls_get_address(struct emutls *it)
{
    static struct { struct emutls *it; size_t at; } known[16];
    static size_t count, used;
    size_t i = 0;

    while (i < count && known[i].it != it)
        i++;
    if (i == count) {
        known[count].it = it;
        known[count++].at = used;
        used += (it->size + 15) / 16 * 16;
        if (used > TLS)
            abort();
    }
    char *at = w.tls[current] + known[i].at;
    if (!(w.is_set[current] >> i & 1)) {
        w.is_set[current] |= 1ull << i;
        if (it->first)
            memcpy(at, it->first, it->size);
        else
            memset(at, 0, it->size);
    }
    return at;
}

/* Threads. Each call drains. */

static void start(void)
{
    struct thread *t = &w.thread[current];

    t->result = t->function(t->argument);
    ask(EMPTY, NULL);
    w.thread[current].is_alive = 0;
    leave();
}

static void make_thread(void *(*function)(void *), void *argument)
{
    int number = (int)w.threads++;
    struct thread *t = &w.thread[number];
    char *top = stacks + (number + 1) * STACK;

    if (number >= THREADS) {
        printf("too many threads\n");
        exit(2);
    }
    memset(t, 0, sizeof *t);
    t->function = function;
    t->argument = argument;
    t->is_alive = 1;
    t->want = RUN;
    memset(top - 64, 0, 64);
    t->sp = top - 64;
    *(void (**)(void))(top - 16) = start;
}

#define CALL(kind, object) \
    do { \
        w.thread[current].pc = PC; \
        ask(kind, object); \
    } while (0)

int mc_pthread_create(pthread_t *id, const void *attributes, void *(*function)(void *), void *argument)
{
    (void)attributes;
    CALL(EMPTY, NULL);
    *id = (pthread_t)w.threads;
    make_thread(function, argument);
    return 0;
}
int mc_thrd_create(pthread_t *id, int (*function)(void *), void *argument)
{
    return mc_pthread_create(id, NULL, (void *(*)(void *))(void *)function, argument);
}
int mc_pthread_join(pthread_t id, void **result)
{
    CALL(JOIN, (void *)id);
    if (result)
        *result = w.thread[id].result;
    return 0;
}
int mc_thrd_join(pthread_t id, int *result)
{
    CALL(JOIN, (void *)id);
    if (result)
        *result = (int)(intptr_t)w.thread[id].result;
    return 0;
}
pthread_t mc_pthread_self(void) { return (pthread_t)current; }
void mc_pthread_exit(void *result)
{
    w.thread[current].result = result;
    ask(EMPTY, NULL);
    w.thread[current].is_alive = 0;
    leave();
}

int mc_pthread_mutex_init(int *m) { *m = 0; return 0; }
int mc_pthread_mutex_lock(int *m) { CALL(LOCK, m); *m = current + 1; return 0; }
int mc_pthread_mutex_trylock(int *m)
{
    CALL(EMPTY, m);
    if (*m)
        return EBUSY;
    *m = current + 1;
    return 0;
}
int mc_pthread_mutex_unlock(int *m)
{
    CALL(EMPTY, m);
    if (*m != current + 1)
        fail("unlock of a mutex that isn't held", 0);
    *m = 0;
    return 0;
}
int mc_pthread_cond_wait(void *cond, int *m)
{
    struct thread *t = &w.thread[current];

    CALL(EMPTY, m);
    if (*m != current + 1)
        fail("wait without the mutex", 0);
    *m = 0;
    t->cond = cond;
    t->is_woken = 0;
    ask(WAIT, m);
    t->cond = NULL;
    t->is_woken = 0;
    *m = current + 1;
    return 0;
}
int mc_pthread_cond_signal(void *cond)
{
    CALL(SIGNAL, cond);
    if (w.thread[current].choice)
        w.thread[w.thread[current].choice - 1].is_woken = 1;
    w.thread[current].choice = 0;
    return 0;
}
int mc_pthread_cond_broadcast(void *cond)
{
    CALL(EMPTY, cond);
    for (int i = 0; i < w.threads; i++)
        if (w.thread[i].cond == cond)
            w.thread[i].is_woken = 1;
    return 0;
}
int mc_sem_init(int *s, int shared, unsigned value) { (void)shared; *s = (int)value; return 0; }
int mc_sem_wait(int *s) { CALL(SEM, s); --*s; return 0; }
int mc_sem_trywait(int *s)
{
    CALL(EMPTY, s);
    if (!*s) {
        errno = EAGAIN;
        return -1;
    }
    --*s;
    return 0;
}
int mc_sem_post(int *s) { CALL(EMPTY, s); ++*s; return 0; }
int mc_sem_getvalue(int *s, int *value) { CALL(EMPTY, s); *value = *s; return 0; }

struct rw { int writer, readers; };
int mc_pthread_rwlock_init(struct rw *l) { l->writer = l->readers = 0; return 0; }
int mc_pthread_rwlock_rdlock(struct rw *l) { CALL(READLOCK, l); l->readers++; return 0; }
int mc_pthread_rwlock_wrlock(struct rw *l) { CALL(WRITELOCK, l); l->writer = current + 1; return 0; }
int mc_pthread_rwlock_tryrdlock(struct rw *l)
{
    CALL(EMPTY, l);
    if (l->writer)
        return EBUSY;
    l->readers++;
    return 0;
}
int mc_pthread_rwlock_trywrlock(struct rw *l)
{
    CALL(EMPTY, l);
    if (l->writer || l->readers)
        return EBUSY;
    l->writer = current + 1;
    return 0;
}
int mc_pthread_rwlock_unlock(struct rw *l)
{
    CALL(EMPTY, l);
    if (l->writer == current + 1)
        l->writer = 0;
    else if (l->readers > 0)
        l->readers--;
    else
        fail("unlock of an rwlock that isn't held", 0);
    return 0;
}

/* A spin lock: the word 1 is free for pthread_spin_init and 0 is too. */
int mc_pthread_spin_init(int *l) { *l = 0; return 0; }

struct bar { int count, arrived, round; };
int mc_pthread_barrier_init(struct bar *b, void *attributes, unsigned count)
{
    (void)attributes;
    b->count = (int)count;
    b->arrived = b->round = 0;
    return 0;
}
int mc_pthread_barrier_wait(struct bar *b)
{
    CALL(EMPTY, b);
    if (++b->arrived == b->count) {
        b->arrived = 0;
        b->round++;
        return -1; /* PTHREAD_BARRIER_SERIAL_THREAD */
    }
    w.thread[current].choice = b->round;
    ask(BARRIER, b);
    w.thread[current].choice = 0;
    return 0;
}
int mc_pthread_once(int *once, void (*function)(void))
{
    CALL(ONCE, once);
    if (*once == 0) {
        *once = 1;
        function();
        ask(EMPTY, once);
        *once = 2;
    }
    return 0;
}
void mc_call_once(int *once, void (*function)(void)) { mc_pthread_once(once, function); }

/* Names that do the same. */
#define SAME(name, as) __asm__(".globl mc_" #name "\n.set mc_" #name ", mc_" #as "\n");
SAME(printf, nothing) SAME(puts, nothing) SAME(putchar, nothing) SAME(fprintf, nothing)
SAME(usleep, nothing) SAME(sched_yield, nothing) SAME(thrd_yield, nothing) SAME(sleep, nothing)
SAME(pthread_mutex_destroy, nothing) SAME(pthread_cond_init, nothing) SAME(pthread_cond_destroy, nothing) SAME(pthread_rwlock_destroy, nothing)
SAME(pthread_spin_destroy, nothing) SAME(pthread_barrier_destroy, nothing) SAME(sem_destroy, nothing) SAME(mtx_destroy, nothing)
SAME(cnd_init, nothing) SAME(cnd_destroy, nothing)
SAME(pthread_spin_lock, pthread_mutex_lock) SAME(mtx_lock, pthread_mutex_lock)
SAME(pthread_spin_trylock, pthread_mutex_trylock) SAME(mtx_trylock, pthread_mutex_trylock)
SAME(pthread_spin_unlock, pthread_mutex_unlock) SAME(mtx_unlock, pthread_mutex_unlock)
SAME(mtx_init, pthread_mutex_init)
SAME(cnd_wait, pthread_cond_wait)
SAME(cnd_signal, pthread_cond_signal)
SAME(cnd_broadcast, pthread_cond_broadcast)

/* The search. */

static bool enabled(int number)
{
    struct thread *t = &w.thread[number];

    if (!t->is_alive)
        return false;
    if (t->want != RUN && t->count)
        return false;
    switch (t->want) {
    case LOCK: return *(int *)t->on == 0;
    case WAIT: return (t->is_woken || is_spurious) && *(int *)t->on == 0;
    case JOIN: return !w.thread[(intptr_t)t->on].is_alive;
    case SEM: return *(int *)t->on > 0;
    case READLOCK: return ((struct rw *)t->on)->writer == 0;
    case WRITELOCK: return ((struct rw *)t->on)->writer == 0 && ((struct rw *)t->on)->readers == 0;
    case BARRIER: return ((struct bar *)t->on)->round != t->choice;
    case ONCE: return *(int *)t->on != 1;
    default: return true;
    }
}

static uint64_t mix(uint64_t h, const void *from, size_t size)
{
    const uint64_t *it = from;

    for (size_t i = 0; i < size / 8; i++) {
        __uint128_t m = (__uint128_t)(h ^ it[i]) * 0x9e3779b97f4a7c15ull;
        h = ((uint64_t)m ^ (uint64_t)(m >> 64)) + 0x632be59bd9b4e019ull;
    }
    for (size_t i = size / 8 * 8; i < size; i++)
        h = (h ^ ((const uint8_t *)from)[i]) * 0x100000001b3ull;
    return h;
}

static size_t depth_of(int number)
{
    return stacks + (number + 1) * STACK - w.thread[number].sp;
}

static uint64_t hash_of(void)
{
    struct world *all = &w;
    void *pcs[THREADS];
    uint64_t h = 7;

    for (int i = 0; i < THREADS; i++) {
        pcs[i] = w.thread[i].pc;
        w.thread[i].pc = NULL;
    }
    h = mix(h, all, sizeof w);
    for (int i = 0; i < THREADS; i++)
        w.thread[i].pc = pcs[i];
    h = mix(h, globals, globals_size);
    for (int i = 0; i < w.threads; i++)
        if (w.thread[i].is_alive)
            h = mix(h, w.thread[i].sp, depth_of(i));
    return h ? h : 1;
}

static uint64_t *seen;
static size_t seen_size, seen_count;

static bool is_new(uint64_t h)
{
    size_t i = h & (seen_size - 1);

    for (; seen[i]; i = (i + 1) & (seen_size - 1))
        if (seen[i] == h)
            return false;
    seen[i] = h;
    if (++seen_count > seen_size / 2) {
        uint64_t *old = seen;

        seen_size *= 2;
        seen = calloc(seen_size, 8);
        for (size_t k = 0; k < seen_size / 2; k++)
            if (old[k]) {
                size_t j = old[k] & (seen_size - 1);

                while (seen[j])
                    j = (j + 1) & (seen_size - 1);
                seen[j] = old[k];
            }
        free(old);
    }
    return true;
}

static char *snapshot(void)
{
    size_t size = sizeof w + globals_size;
    char *to, *at;

    for (int i = 0; i < w.threads; i++)
        size += depth_of(i);
    at = to = malloc(size);
    memcpy(at, &w, sizeof w);
    at += sizeof w;
    memcpy(at, globals, globals_size);
    at += globals_size;
    for (int i = 0; i < w.threads; i++) {
        memcpy(at, w.thread[i].sp, depth_of(i));
        at += depth_of(i);
    }
    return to;
}

static void restore(const char *at)
{
    memcpy(&w, at, sizeof w);
    at += sizeof w;
    memcpy(globals, at, globals_size);
    at += globals_size;
    for (int i = 0; i < w.threads; i++) {
        memcpy(w.thread[i].sp, at, depth_of(i));
        at += depth_of(i);
    }
}

static struct { int thread, drain; void *pc; char *cell; } trace[100000];
static int deadlocks, failures, finished;
static char said[20][300];
static int sayings;
static uintptr_t base;

static void show(int depth)
{
    for (int i = 0; i < depth; i++) {
        Dl_info info = {0};
        if (trace[i].cell)
            dladdr(trace[i].cell, &info);
        printf("  %d %s %#lx %s\n", trace[i].thread, trace[i].drain < 0 ? "runs" : "drains", (uintptr_t)trace[i].pc - base,
               info.dli_sname ? info.dli_sname : "");
    }
}

static void say(const char *what, int depth)
{
    for (int i = 0; i < sayings; i++)
        if (!strcmp(said[i], what))
            return;
    if (sayings < 20)
        strcpy(said[sayings++], what);
    if (is_trace) {
        printf("%s\n", what);
        show(depth);
    }
}

static void explore(int depth)
{
    char *state;
    int moves = 0;
    bool is_over = true;

    if (is_again || !is_new(hash_of()))
        return;
    if (depth >= 99000) {
        printf("too deep\n");
        exit(2);
    }
    state = snapshot();
    for (int i = 0; i < w.threads; i++) {
        is_over &= !w.thread[i].is_alive;
        if (enabled(i)) {
            int waiters = 0;

            for (int k = 0; k <= w.threads && !is_again; k++) {
                /* k is the waiter that a signal wakes, or none. */
                if (k < w.threads) {
                    if (w.thread[i].want != SIGNAL || w.thread[k].cond != w.thread[i].on || w.thread[k].is_woken)
                        continue;
                    waiters++;
                } else if (waiters) {
                    break;
                }
                moves++;
                trace[depth].thread = i;
                trace[depth].drain = -1;
                trace[depth].pc = w.thread[i].pc;
                trace[depth].cell = NULL;
                if (w.thread[i].want == SIGNAL)
                    w.thread[i].choice = k < w.threads ? k + 1 : 0;
                run(i);
                if (has_failed) {
                    has_failed = false;
                    failures++;
                    say(failure, depth + 1);
                } else {
                    explore(depth + 1);
                }
                restore(state);
            }
        }
        for (int k = 0; k < w.thread[i].count && !is_again; k++)
            if (may_drain(&w.thread[i], k)) {
                struct entry it = w.thread[i].buffer[k];

                moves++;
                trace[depth].thread = i;
                trace[depth].drain = k;
                trace[depth].pc = NULL;
                trace[depth].cell = it.at;
                memcpy(it.at, it.bytes, it.size);
                drop(&w.thread[i], k);
                explore(depth + 1);
                restore(state);
            }
    }
    free(state);
    if (is_again)
        return;
    if (is_over)
        finished++;
    else if (!moves) {
        deadlocks++;
        say("deadlock", depth);
    }
}

static int find_globals(struct dl_phdr_info *info, size_t size, void *name)
{
    char *end = NULL;

    (void)size;
    if (!strstr(info->dlpi_name, name))
        return 0;
    base = info->dlpi_addr;
    for (int i = 0; i < info->dlpi_phnum; i++)
        if (info->dlpi_phdr[i].p_type == PT_GNU_RELRO)
            end = (char *)(info->dlpi_addr + ((info->dlpi_phdr[i].p_vaddr + info->dlpi_phdr[i].p_memsz + 4095) & ~4095ull));
    for (int i = 0; i < info->dlpi_phnum; i++)
        if (info->dlpi_phdr[i].p_type == PT_LOAD && info->dlpi_phdr[i].p_flags & PF_W) {
            char *from = (char *)(info->dlpi_addr + info->dlpi_phdr[i].p_vaddr), *to = from + info->dlpi_phdr[i].p_memsz;

            globals = end && end > from ? end : from;
            globals_size = to > globals ? (size_t)(to - globals) : 0;
        }
    return 1;
}

static int (*program_main)(int, char **);
static void *main_thread(void *unused)
{
    (void)unused;
    int status = program_main(1, (char *[]){"p", NULL});
    if (status)
        fail("main returns", status);
    return NULL;
}

static void *search(void *unused)
{
    char *first = malloc(globals_size + 1);
    int passes = 0;

    (void)unused;
    memcpy(first, globals, globals_size);
    do {
        passes++;
        is_again = false;
        memcpy(globals, first, globals_size);
        memset(&w, 0, sizeof w);
        memset(stacks, 0, THREADS * STACK);
        seen_count = deadlocks = failures = finished = sayings = 0;
        memset(seen, 0, seen_size * 8);
        make_thread(main_thread, NULL);
        explore(0);
    } while (is_again);
    printf("%s%s%s, %zu states, %d passes, %d finished", failures ? "fails" : "", deadlocks ? (failures ? "+deadlocks" : "deadlocks") : "",
           failures || deadlocks ? "" : "none", seen_count, passes, finished);
    for (int i = 0; i < sayings; i++)
        printf("; %s", said[i]);
    printf("\n");
    return NULL;
}

int main(int n, char **words)
{
    pthread_attr_t attributes;
    pthread_t thread;
    void *library;

    if (n < 3)
        return 2;
    model = !strcmp(words[2], "sc") ? SC : !strcmp(words[2], "tso") ? TSO : PSO;
    for (int i = 3; i < n; i++) {
        is_reuse |= !strcmp(words[i], "reuse");
        is_spurious |= !strcmp(words[i], "spurious");
        is_trace |= !strcmp(words[i], "trace");
    }
    library = dlopen(words[1], RTLD_NOW);
    if (!library) {
        printf("%s\n", dlerror());
        return 2;
    }
    program_main = (int (*)(int, char **))dlsym(library, "main");
    dl_iterate_phdr(find_globals, words[1]);
    stacks = mmap(NULL, THREADS * STACK, PROT_READ | PROT_WRITE, MAP_PRIVATE | MAP_ANONYMOUS, -1, 0);
    touched_stacks = calloc(THREADS, STACK);
    touched_globals = calloc(globals_size + 1, 1);
    seen_size = 1 << 16;
    seen = calloc(seen_size, 8);
    pthread_attr_init(&attributes);
    pthread_attr_setstacksize(&attributes, 1ul << 30);
    pthread_create(&thread, &attributes, search, NULL);
    pthread_join(thread, NULL);
    return 0;
}
