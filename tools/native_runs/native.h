// The runtime below a program that to_c.py makes of flat code: a C function for each function of the code, a pthread for each thread,
// and a macro for each instruction. docs/NATIVE.md says what each macro does to memory, and why a log of such a run is one of the TSO
// machine. The file that includes this defines CELLS, MUTEXES, CONDS, VARS, ARGS, FUNCTIONS, BRANCHES (the most in one function) and
// `first_values`, and after it `bodies`.
//
//   RECORD 1   what a log needs: the outcomes of each thread's own branches that its code doesn't determine, how often it jumped
//              back, and where it ended
//   RECORD 0   nothing (to measure by)
//   RECORD 2   for each shared variable the threads in the order of their accesses, as LEAP records (to measure by)
//   HUNT 1     runs are disturbed so that they fail sooner; HUNT 0 leaves them alone and prints what each took (to measure by)
#include <linux/futex.h>
#include <pthread.h>
#include <sched.h>
#include <signal.h>
#include <stdatomic.h>
#include <stdint.h>
#include <stdio.h>
#include <stdlib.h>
#include <string.h>
#include <sys/mman.h>
#include <sys/prctl.h>
#include <sys/resource.h>
#include <sys/syscall.h>
#include <time.h>
#include <unistd.h>

#ifndef RECORD
#define RECORD 1
#endif
#ifndef HUNT
#define HUNT (RECORD == 1)
#endif
#define THREADS 16
#define STEPS_MOST 65535  // of a thread in a log; no loop has less than two
#define LINE 128          // two cache lines, since the hardware fetches them in pairs
#ifndef STRIDE
#define STRIDE (LINE / 4)  // ints from one cell to the next
#endif
#define rarely(e) __builtin_expect(!!(e), 0)
#define seldom __attribute__((noinline, cold))  // kept out of the way of what runs often
#define cycles() __builtin_ia32_rdtsc()

// ---- What threads share --------------------------------------------------------------------------------------------------------

// The cells of the program. `volatile`: each access is made once, in the order of the code, as one aligned mov of four bytes.
static volatile int memory[(CELLS + 1) * STRIDE] __attribute__((aligned(LINE)));
#define CELL(c) memory[(c) * STRIDE]

static struct { _Alignas(LINE) atomic_int owner; } mutexes[MUTEXES + 1];  // 0: free; else the owner's index + 1
static struct { _Alignas(LINE) atomic_uint waiting; } conds[CONDS + 1];   // a bit for each thread that waits

enum how { UNUSED, EXITED, FAILED, STOPPED };

typedef struct Thread {
    _Alignas(LINE) uint8_t *volatile end;  // where its outcomes must stop; 0 tells it to stop, and it looks at each jump back
    _Alignas(LINE) atomic_uint go;         // the run that it was last created in
    atomic_uint asleep, exited;            // whether it waits in futex for `go`; the run in which it last exited
    _Alignas(LINE) uint8_t *out;           // its outcomes, a byte each,
    uint8_t *cursor;                       // and where those of the last run end
    int index, function, parent, number, children, args[ARGS + 1];
    int how, pc;                           // how it ended, at which instruction,
    unsigned jumps;                        // and after how many jumps back;
    int kind, what;                        // if it stopped at one that blocks: 'l' a mutex, 'w' a condition and a mutex, 'j' a child
    int quiet;                             // how many events until it is disturbed
    volatile char *cold;                   // memory of its own that is in no cache
    size_t cold_at;
    double cpu;                            // without HUNT: the processor time of its body
    uint64_t random;
} Thread;

static Thread threads[THREADS];
static void (*const bodies[])(Thread *);

static struct {
    _Alignas(LINE) unsigned number;  // of this run, from 1
    int may_gate, jitter, noise, delay, cold;
    uint64_t deadline;
    _Alignas(LINE) atomic_int created, alive, waiting, failed, limit, still;
    _Alignas(LINE) atomic_int arrived, expected;
    _Alignas(LINE) _Atomic uint64_t gate;
} run;

// Makes each thread end its path at its next jump back or blocking instruction.
seldom static void stop_all(void) {
    for (int k = 0; k < THREADS; k++) threads[k].end = 0;
}

static uint64_t next_random(uint64_t *r) {
    *r ^= *r << 13, *r ^= *r >> 7, *r ^= *r << 17;
    return *r;
}

// ---- Waiting -------------------------------------------------------------------------------------------------------------------

// Passes some time, more in later rounds of a wait. It sleeps soon: where other processes run too, a thread that wakes is on again long
// before one that has yielded. A run that is older than its deadline is stopped: it hangs, or is in a deadlock,
// which is looked at when all threads have stopped.
seldom static void relax(unsigned round) {
    if (round < 20) __builtin_ia32_pause();
    else if (round < 40) sched_yield();
    else usleep(round < 60 ? 10 : round < 100 ? 50 : 300);
    if (round >= 20 && rarely(cycles() > run.deadline) && threads[0].end) {
        run.still = 1;
        stop_all();
    }
}

// Whether a thread that waits, or stopped at a wait, can't go on as things are.
static int is_blocked(const Thread *it) {
    switch (it->kind) {
    case 'l': return mutexes[it->what].owner != 0;
    case 'w': return mutexes[it->what & 255].owner != 0 || (conds[it->what >> 8].waiting >> it->index & 1);
    case 'j': return threads[it->what].how != EXITED;
    default: return 0;
    }
}

static int created_threads(void) { return run.created < THREADS ? run.created : THREADS; }

static int is_each_blocked_or_exited(void) {
    for (int k = 0; k < created_threads(); k++)
        if (threads[k].how != EXITED && !is_blocked(&threads[k])) return 0;
    return 1;
}

// A round of a wait. If all threads wait and look blocked for a while, they are stopped: only then it is known whether they are.
seldom static void wait_on(unsigned round) {
    static _Thread_local unsigned calm;
    calm = round > 20 && run.waiting >= run.alive ? calm + 1 : 0;
    if (HUNT && rarely(calm >= 20)) {
        if (is_each_blocked_or_exited()) run.still = 1, stop_all();
        calm = 0;
    }
    relax(round);
}

// ---- Disturbing ----------------------------------------------------------------------------------------------------------------

// Disturbs a thread before an event, as its system or processor might: holds it up, or has it store to lines that are in no cache, so
// that its own stores to come wait in the processor's buffer behind them. Gives how many events are left alone from here.
#define COLD (1u << 25)
seldom static int disturb(Thread *me, int is_store) {
    if (!run.noise && !run.cold) return 1 << 30;
    if (run.cold && is_store) {
        for (int k = 0; k < run.cold; k++) me->cold[me->cold_at = (me->cold_at + 4096 + 64) % COLD] = 1;
        return 0;
    }
    if (run.noise && next_random(&me->random) % run.noise == 0) {
        uint64_t until = cycles() + next_random(&me->random) % run.delay;
        while (cycles() < until && me->end) __builtin_ia32_pause();
    }
    return 0;
}

// A thread that goes round a loop with accesses but no store lets the others catch up, longer and longer: a log has room for few events.
seldom static void let_others(Thread *me, unsigned idle) {
    unsigned rounds = idle < 160 ? 1u << idle / 16 : 1024;
    for (unsigned k = 0; k < rounds && me->end && run.alive > 1; k++) relax(20 + k % 1024);
}

// Threads that were just created begin together, and with their creator unless it joins next, if it doesn't take too long for all
// to be there: the last one to come sets the time.
seldom static void pass_gate(Thread *me) {
    run.arrived++;
    for (unsigned k = 0; !run.gate && k < 500 && me->end; k++) {
        uint64_t none = 0;
        if (run.arrived == run.expected && atomic_compare_exchange_strong(&run.gate, &none, cycles() + 300)) break;
        if (k < 300) __builtin_ia32_pause();
        else relax(k);
    }
    uint64_t until = (run.gate ? run.gate : cycles()) + next_random(&me->random) % run.jitter;
    while (cycles() < until && me->end) __builtin_ia32_pause();
}

// The creator says how many come, the first time that it does something else.
seldom static void close_gate(Thread *me, int joins) {
    if (!run.expected) run.expected = run.created - joins;
    if (!joins && !run.gate) pass_gate(me);
}

// ---- What is recorded ----------------------------------------------------------------------------------------------------------

#if RECORD == 2
// A vector of accesses and a lock for each shared variable, and a vector for each mutex.
#ifndef LEAP_MOST
#define LEAP_MOST (1u << 24)
#endif
#ifdef LEAP_PTHREAD
#define LEAP_LOCK pthread_mutex_t
#define leap_take(l) pthread_mutex_lock(l)
#define leap_give(l) pthread_mutex_unlock(l)
#else
#define LEAP_LOCK atomic_int
#define leap_take(l) \
    for (unsigned r = 0; atomic_exchange(l, 1); r++) \
        while (atomic_load_explicit(l, memory_order_relaxed)) relax(r++)
#define leap_give(l) atomic_store_explicit(l, 0, memory_order_release)
#endif
static struct { _Alignas(LINE) LEAP_LOCK lock; size_t count; uint8_t *begin; } vectors[VARS + MUTEXES + 1];
#define APPEND(v) (vectors[v].begin[vectors[v].count++ % LEAP_MOST] = me->index)
#define ACCESS(v, what) do { leap_take(&vectors[v].lock); APPEND(v); what; leap_give(&vectors[v].lock); } while (0)
#define ACQUIRED(m) APPEND(VARS + (m))
#else
#define ACCESS(v, what) do { what; } while (0)
#define ACQUIRED(m) ((void)0)
#endif

#if RECORD == 1
#define BEGIN uint8_t *o = me->out; unsigned jumps = 0; (void)jumps;
#define OUTCOME(b) (*o++ = (b))
// One comparison finds both a full buffer and a run that is stopped.
#define POLL(pc) do { if (rarely(o >= me->end)) { if (me->end) { run.limit = 1; stop_all(); } STOP(pc); } } while (0)
#define IS_STOPPED (!me->end)
#define KEEP_PLACE do { me->cursor = o; me->jumps = jumps; } while (0)
#define JUMPS (++jumps)
#else
#define BEGIN
#define OUTCOME(b) ((void)(b))
#define POLL(pc) do { if (HUNT && rarely(!me->end)) STOP(pc); } while (0)
#define IS_STOPPED (HUNT && !me->end)
#define KEEP_PLACE ((void)0)
#define JUMPS 0
#endif

// ---- The instructions ----------------------------------------------------------------------------------------------------------

#if HUNT
#define HUNTED int quiet = me->quiet, is_gate_due = 0; unsigned idle = 0, before = 0; \
    (void)quiet, (void)is_gate_due, (void)idle, (void)before; \
    if (run.may_gate && me->index) pass_gate(me);
#define CLOSE_GATE(joins) if (rarely(is_gate_due)) { is_gate_due = 0; if (run.may_gate) close_gate(me, joins); }
#define BEFORE(is_store) do { \
    CLOSE_GATE(0) \
    if (rarely(--quiet < 0)) quiet = disturb(me, is_store); \
    idle = is_store ? 0 : idle + 1; \
} while (0)
#define BACK(pc) do { \
    POLL(pc); \
    if (rarely(JUMPS > STEPS_MOST / 2)) { run.limit = 1; stop_all(); } \
    if (rarely(idle > 16) && idle != before) let_others(me, idle); \
    before = idle; \
} while (0)
#define COUNTED(pc) BACK(pc)
#define CREATED is_gate_due = 1
#else
#define HUNTED
#define BEFORE(is_store) ((void)0)
#define BACK(pc) do { POLL(pc); (void)JUMPS; } while (0)
#define COUNTED(pc) (void)JUMPS  // a loop that ends by itself and records nothing
#define CREATED ((void)0)
#define CLOSE_GATE(joins)
#endif

#define FUNCTION BEGIN HUNTED uint64_t held = 0; (void)held; POLL(0)
#define END ended: KEEP_PLACE;
#define STOP(pc_) do { me->pc = (pc_); me->how = STOPPED; goto ended; } while (0)
#define DRAIN __asm__ volatile("mfence" ::: "memory")
#define AWAIT(pc, kind_, what_, is_free) do { \
    unsigned round = 0; \
    for (; !(is_free); wait_on(round++)) { \
        if (round == 20) me->kind = (kind_), me->what = (what_), run.waiting++; \
        if (IS_STOPPED) { me->kind = (kind_), me->what = (what_); STOP(pc); } \
    } \
    if (rarely(round > 20)) run.waiting--, me->kind = 0; \
} while (0)

#define EVENT BEFORE(0)
#define SET(k, e) ((k) = (e))
#define LOAD(k, c, v) EVENT; ACCESS(v, (k) = CELL(c))
#define STORE(c, e, v) BEFORE(1); ACCESS(v, CELL(c) = (e))
#define SWAP(k, c, v, e) EVENT; ACCESS(v, (k) = __atomic_exchange_n(&CELL(c), (e), __ATOMIC_SEQ_CST))
#define ADD(k, c, v, e) EVENT; ACCESS(v, (k) = __atomic_fetch_add(&CELL(c), (e), __ATOMIC_SEQ_CST))
#define CAS(k, c, v, e, f) EVENT; do { int seen = (e); \
    ACCESS(v, __atomic_compare_exchange_n(&CELL(c), &seen, (f), 0, __ATOMIC_SEQ_CST, __ATOMIC_SEQ_CST)); (k) = seen; } while (0)
#define FENCE EVENT; DRAIN
#define STBAR __asm__ volatile("" ::: "memory")

// A thread that isn't the first to fail ends its path before its site.
#define SITE(pc_, e) do { if (rarely(!(e))) { \
    int none = -1; \
    if (!atomic_compare_exchange_strong(&run.failed, &none, me->index)) STOP(pc_); \
    stop_all(); \
    me->pc = (pc_); me->how = FAILED; goto ended; } } while (0)
#define KNOWN(e, to) if (!(e)) goto to  // what the code determines isn't recorded
#define BRANCH(e, to) do { int b = (e) != 0; OUTCOME(b); if (!b) goto to; } while (0)

// Mutexes and conditions are ours, not pthread's: no wake without a signal, and a signal wakes exactly one thread that waits.
// Each takes effect in one locked instruction (or, where nobody waits, in a load behind a fence), so the buffer is empty.
#define TAKE(m) (!atomic_load_explicit(&mutexes[m].owner, memory_order_relaxed) && \
    atomic_compare_exchange_strong(&mutexes[m].owner, &(int){0}, me->index + 1))
#define LOCK(pc, m) do { EVENT; AWAIT(pc, 'l', m, TAKE(m)); held |= 1ull << (m); ACQUIRED(m); } while (0)
#define HOLDS(pc, m) SITE(pc, held >> (m) & 1)
#define UNLOCK(m) do { EVENT; held &= ~(1ull << (m)); atomic_exchange(&mutexes[m].owner, 0); } while (0)
#define SLEEP(c, m) do { EVENT; held &= ~(1ull << (m)); \
    atomic_fetch_or(&conds[c].waiting, 1u << me->index); atomic_exchange(&mutexes[m].owner, 0); } while (0)
#define IS_WOKEN(c) (!(conds[c].waiting >> me->index & 1))
#define WAKE(pc, c, m) do { EVENT; AWAIT(pc, 'w', (c) << 8 | (m), IS_WOKEN(c) && TAKE(m)); held |= 1ull << (m); ACQUIRED(m); } while (0)
#define SIGNAL(c) do { EVENT; DRAIN; wake_one(me, &conds[c].waiting); } while (0)
#define BROADCAST(c) do { EVENT; atomic_exchange(&conds[c].waiting, 0); } while (0)

seldom static void wake_one(Thread *me, atomic_uint *waiting) {
    unsigned all = *waiting;
    while (all) {
        unsigned one = all & -all;
        for (unsigned rest = all & (all - 1); rest && next_random(&me->random) & 1; rest &= rest - 1) one = rest & -rest;
        if (atomic_compare_exchange_strong(waiting, &all, all & ~one)) return;
    }
}

#define CREATE(pc_, h, f, ...) do { \
    int child = atomic_fetch_add(&run.created, 1); \
    if (child >= THREADS) { run.limit = 1; stop_all(); STOP(pc_); } \
    begin_thread(me, child, (f), (int[ARGS + 1]){__VA_ARGS__}); \
    (h) = child; CREATED; } while (0)
#define READY(pc, h) SITE(pc, (h) > 0)
#define JOIN(pc, h) do { CLOSE_GATE(1) EVENT; DRAIN; AWAIT(pc, 'j', h, threads[h].exited == run.number); (h) = -1; } while (0)
#define EXIT(pc_) do { EVENT; DRAIN; me->pc = (pc_); me->how = EXITED; } while (0)

static long futex(atomic_uint *at, int op, unsigned value) { return syscall(SYS_futex, at, op, value, 0, 0, 0); }

seldom static void begin_thread(Thread *me, int child, int function, const int *args) {
    Thread *it = &threads[child];
    it->function = function, it->parent = me->index, it->number = ++me->children, it->children = 0;
    memcpy(it->args, args, sizeof it->args);
    run.alive++;
    atomic_exchange(&it->go, run.number);
    if (it->asleep) futex(&it->go, FUTEX_WAKE_PRIVATE, 1);
}

static inline int divided(int a, int b) { return b == 0 ? 0 : b == -1 ? (int)(0u - (unsigned)a) : a / b; }
static inline int remains(int a, int b) { return b == 0 || b == -1 ? 0 : a % b; }
static inline int left(int a, int b) { return b < 0 || b > 31 ? 0 : (int)((unsigned)a << b); }
static inline int right(int a, int b) { return b < 0 || b > 31 ? 0 : a >> b; }

// ---- The pool of threads -------------------------------------------------------------------------------------------------------

static void give_up(const char *why) {
    printf("broken %s\n", why);
    fflush(stdout);
    _exit(2);
}

static double seconds(clockid_t clock) {
    struct timespec t;
    clock_gettime(clock, &t);
    return t.tv_sec + t.tv_nsec / 1e9;
}

// Asks for the shortest slice and for sleeps that end in time, so that a thread is soon on again where other processes run too. It may
// fail.
static void take_short_turns(void) {
    prctl(PR_SET_TIMERSLACK, 1);
    struct { uint32_t size, policy; uint64_t flags; int32_t nice; uint32_t priority; uint64_t slice, deadline, period; } asked =
        {.size = 48, .nice = getpriority(PRIO_PROCESS, 0), .slice = 100000};
    syscall(SYS_sched_setattr, 0, &asked, 0);
}

// Waits until the thread is created in a run after the last one, and gives that run's number.
static unsigned await_go(Thread *me, unsigned last) {
    for (unsigned k = 0; me->go == last; k++) {
        if (k < 20) __builtin_ia32_pause();
        else if (k < 40) sched_yield();
        else {
            me->asleep = 1;
            if (me->go == last) futex(&me->go, FUTEX_WAIT_PRIVATE, last);
            me->asleep = 0;
        }
    }
    return me->go;
}

static void *live(void *of) {
    Thread *me = of;
    if (HUNT) take_short_turns();
    for (unsigned last = 0;;) {
        last = await_go(me, last);
        if (!HUNT) me->cpu = -seconds(CLOCK_THREAD_CPUTIME_ID);
        bodies[me->function](me);
        if (!HUNT) me->cpu += seconds(CLOCK_THREAD_CPUTIME_ID);
        if (me->how == EXITED) me->exited = last;
        run.alive--;
    }
    return 0;
}

static int cpus[64], cpu_count;
static pthread_t pool[THREADS];

static void pin(pthread_t thread, int cpu) {
    cpu_set_t set;
    CPU_ZERO(&set);
    CPU_SET(cpu, &set);
    pthread_setaffinity_np(thread, sizeof set, &set);
}

static void *memory_of(size_t size, int flags) {
    void *at = mmap(0, size, PROT_READ | PROT_WRITE, MAP_PRIVATE | MAP_ANONYMOUS | flags, -1, 0);
    if (at == MAP_FAILED) give_up("no memory");
    return at;
}

#define SPARE (64 + 8 * BRANCHES)  // more than the outcomes between two looks at `end`
#define ROOM ((RECORD == 1 && !HUNT ? 1ul << 28 : STEPS_MOST) + SPARE)

// The pool: this thread is main, the others wait for a create.
static void begin_pool(void) {
    for (int k = 0; k < THREADS; k++) {
        threads[k].index = k;
        if (HUNT) threads[k].cold = memory_of(COLD, MAP_NORESERVE);
        threads[k].out = memory_of(ROOM, HUNT ? 0 : MAP_NORESERVE);
        if (RECORD == 1 && !HUNT) memset(threads[k].out, 1, 1 << 22);  // so that no page of it is new when it is measured
    }
    pool[0] = pthread_self();
    if (HUNT) take_short_turns();
    for (int k = 1; k < THREADS; k++)
        if (pthread_create(&pool[k], 0, live, &threads[k])) give_up("no thread");
    for (int k = 0; k < THREADS; k++) pin(pool[k], cpus[k % cpu_count]);
#if RECORD == 2
    for (int v = 0; v < VARS + MUTEXES; v++) {
        memset(vectors[v].begin = memory_of(LEAP_MOST, MAP_NORESERVE), 1, LEAP_MOST);
#ifdef LEAP_PTHREAD
        pthread_mutex_init(&vectors[v].lock, 0);
#endif
    }
#endif
}

// Puts the threads of the last run anew on the processors, as many on each.
static void move_threads(uint64_t *random) {
    int places[THREADS], used = created_threads();
    for (int k = 0; k < used; k++) places[k] = cpus[k % cpu_count];
    for (int k = used - 1; k > 0; k--) {
        int other = next_random(random) % (k + 1), place = places[k];
        places[k] = places[other], places[other] = place;
    }
    for (int k = 0; k < used; k++) pin(pool[k], places[k]);
}

// ---- A run ---------------------------------------------------------------------------------------------------------------------

// Chooses how a run is disturbed: cold stores in half of the runs and delays in half, independently.
static void choose_noise(uint64_t *random) {
    static const int jitters[] = {1, 60, 250, 250, 1000, 4000, 20000}, noises[] = {2, 6, 20}, delays[] = {100, 500, 2500, 20000},
        colds[] = {3, 10, 20, 40};
    uint64_t dice = next_random(random);
    run.may_gate = dice % 8 != 0;
    run.jitter = jitters[(dice >> 8) % 7];
    run.cold = dice >> 16 & 1 ? colds[(dice >> 18) % 4] : 0;
    run.noise = dice >> 17 & 1 ? noises[(dice >> 20) % 3] : 0;
    run.delay = delays[(dice >> 24) % (run.cold ? 3 : 4)];
}

// Makes all as it is when the program begins. `most` is how many cycles the run may take.
static void prepare(uint64_t *random, uint64_t most) {
    for (int c = 0; c < CELLS; c++) CELL(c) = first_values[c];
    for (int m = 0; m < MUTEXES; m++) mutexes[m].owner = 0;
    for (int c = 0; c < CONDS; c++) conds[c].waiting = 0;
    if (HUNT) choose_noise(random);
    run.created = run.alive = 1, run.waiting = run.limit = run.still = run.arrived = run.expected = 0;
    run.failed = -1, run.gate = 0;
    for (int k = 0; k < THREADS; k++) {
        Thread *it = &threads[k];
        it->end = it->out + ROOM - SPARE, it->cursor = it->out;
        it->how = STOPPED, it->pc = it->kind = it->jumps = 0;
        it->random = next_random(random) | 1;
        it->quiet = run.noise || run.cold ? 0 : 1 << 30;
    }
    threads[0].function = FUNCTIONS - 1, threads[0].parent = -1, threads[0].children = 0;
#if RECORD == 2
    for (int v = 0; v < VARS + MUTEXES; v++) vectors[v].count = 0;
#endif
    run.deadline = cycles() + most;
    atomic_thread_fence(memory_order_seq_cst);
}

static void run_once(void) {
    bodies[FUNCTIONS - 1](&threads[0]);
    run.alive--;
    for (unsigned k = 0; run.alive; k++) relax(k);
}

enum end { FINISHED, FAILURE, DEADLOCK, TOO_LONG, STILL };

// How the run ended, when all threads have stopped.
static enum end how_it_ended(void) {
    if (run.failed >= 0) return FAILURE;
    if (run.limit) return TOO_LONG;
    int exited = 0;
    for (int k = 0; k < created_threads(); k++) exited += threads[k].how == EXITED;
    if (exited == run.created) return FINISHED;
    return is_each_blocked_or_exited() ? DEADLOCK : STILL;
}

// What a run leaves behind: of each thread its creator, its number there, its function, how and where it ended, and its outcomes.
static void print_run(const char *end, int failed) {
    printf("run %u %s %d", run.number, end, failed);
    for (int k = 0; k < created_threads(); k++) {
        Thread *it = &threads[k];
        printf(" %d:%d:%d:%d:%d:%u:", it->parent, it->number, it->function, it->how, it->pc, it->jumps);
        for (uint8_t *at = it->out; at < it->cursor; at++) putchar('0' + *at);
    }
    putchar('\n');
    fflush(stdout);
}

static uint64_t hash_of_run(int failed) {
    uint64_t h = 1469598103934665603ull + failed;
    for (int k = 0; k < created_threads(); k++) {
        Thread *it = &threads[k];
        uint64_t part[] = {it->parent, it->number, it->how, it->pc, it->jumps, it->cursor - it->out};
        for (int i = 0; i < 6; i++) h = (h ^ part[i]) * 1099511628211ull, h ^= h >> 29;
        for (uint8_t *at = it->out; at < it->cursor; at++) h = (h ^ *at) * 1099511628211ull;
        h ^= h >> 31;
    }
    return h | 1;
}

// Whether no run before left the same behind, as far as a table of hashes knows.
#define HASHES (1u << 22)
static int is_new(int failed) {
    static uint64_t table[HASHES];
    uint64_t h = hash_of_run(failed);
    for (unsigned k = h >> 20, tries = 0; tries < 64; k++, tries++) {
        uint64_t *at = &table[k % HASHES];
        if (*at == h) return 0;
        if (!*at) return *at = h, 1;
    }
    return 0;
}

// What a run took in seconds and in processor time of its threads, and how much it recorded of each thread or variable.
static void print_cost(double wall) {
    double cpu = 0;
    for (int k = 1; k < created_threads(); k++) cpu += threads[k].cpu;
    printf("took %.6f %.6f", wall, cpu);
#if RECORD == 1
    for (int k = 0; k < created_threads(); k++) printf(" %ld", (long)(threads[k].cursor - threads[k].out));
#elif RECORD == 2
    for (int v = 0; v < VARS + MUTEXES; v++) printf(" %zu", vectors[v].count);
#endif
    printf("\n");
}

#ifdef DUMP
static void dump(int number, const uint8_t *begin, size_t count) {
    char name[4096];
    snprintf(name, sizeof name, "%s.%d", DUMP, number);
    FILE *file = fopen(name, "w");
    if (!file || fwrite(begin, 1, count, file) != count || fclose(file)) give_up("can't dump");
}

// Writes what the last run recorded: a file for each thread, or for each variable and mutex.
static void dump_all(void) {
#if RECORD == 1
    for (int k = 0; k < created_threads(); k++) dump(k, threads[k].out, threads[k].cursor - threads[k].out);
#elif RECORD == 2
    for (int v = 0; v < VARS + MUTEXES; v++) dump(v, vectors[v].begin, vectors[v].count < LEAP_MOST ? vectors[v].count : LEAP_MOST);
#endif
}
#endif

// ---- All runs ------------------------------------------------------------------------------------------------------------------

static struct { unsigned long done, failures, deadlocks, too_long, still, kept; double begun, shown, timeout; } all;

static void print_counts(void) {
    printf("counts %lu %lu %lu %lu %lu %.3f\n", all.done, all.failures, all.deadlocks, all.too_long, all.still,
           seconds(CLOCK_MONOTONIC) - all.begun);
    fflush(stdout);
}

// Counts a run, and prints it if it failed or came to a deadlock as no run before.
static void take_end(enum end end) {
    all.done++;
    if (end == FAILURE) all.failures++;
    if (end == DEADLOCK) all.deadlocks++;
    if (end == TOO_LONG) all.too_long++;
    // many runs that hang mean that the machine is busy, or that the program does
    if (end == STILL && ++all.still * 20 > all.done && all.timeout < 0.2) all.timeout *= 2;
    int failed = end == FAILURE ? run.failed : -1;
    if ((end == FAILURE || end == DEADLOCK) && is_new(failed)) {
        print_run(end == FAILURE ? "failed" : "deadlock", failed);
        all.kept++;
    }
}

// Whether there is time for another run; now and then the counts are printed.
static int goes_on(unsigned long runs, double most, unsigned long keep) {
    if (all.done >= runs || all.kept >= keep) return 0;
    if (HUNT && all.done % 16 != 0 && !run.still) return 1;
    double now = seconds(CLOCK_MONOTONIC);
    if (HUNT && now - all.shown > 0.1) all.shown = now, print_counts();
    return now - all.begun <= most;
}

// PROGRAM RUNS SECONDS SEED KEEP CPU..: prints each new end that is a failure or a deadlock, at most KEEP, then counts.
int main(int count, char **words) {
    if (count < 6) return 2;
    prctl(PR_SET_PDEATHSIG, SIGKILL);  // it ends with the script that began it
    unsigned long runs = strtoul(words[1], 0, 10), keep = strtoul(words[4], 0, 10);
    double most = atof(words[2]);
    uint64_t random = strtoull(words[3], 0, 10) * 0x9E3779B97F4A7C15 + 0x1234567;
    for (int k = 5; k < count && cpu_count < 64; k++) cpus[cpu_count++] = atoi(words[k]);
    all.timeout = HUNT ? 0.005 : 1e6;
    begin_pool();
    all.begun = all.shown = seconds(CLOCK_MONOTONIC);
    for (run.number = 1; goes_on(runs, most, keep); run.number++) {
        if (HUNT && run.number % 1024 == 0) move_threads(&random);
        prepare(&random, (uint64_t)(all.timeout * 2.5e9));  // cycles of a second, which matter little
        double begun = HUNT ? 0 : seconds(CLOCK_MONOTONIC);
        run_once();
        take_end(how_it_ended());
        if (!HUNT) print_cost(seconds(CLOCK_MONOTONIC) - begun);
    }
#ifdef DUMP
    dump_all();
#endif
    print_counts();
    _exit(0);
}
