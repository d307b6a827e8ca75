/* What tools/fromc knows of <threads.h>. The calls are built in. */
#ifndef FROM_C_THREADS_H
#define FROM_C_THREADS_H
typedef unsigned long thrd_t;
typedef struct { int state; } mtx_t;
typedef struct { int state; } cnd_t;
typedef int (*thrd_start_t)(void *);
enum { mtx_plain, mtx_recursive, mtx_timed };
enum { thrd_success, thrd_nomem, thrd_timedout, thrd_busy, thrd_error };
#define thread_local _Thread_local
int thrd_create(thrd_t *, thrd_start_t, void *);
int thrd_join(thrd_t, int *);
int thrd_detach(thrd_t);
_Noreturn void thrd_exit(int);
void thrd_yield(void);
int mtx_init(mtx_t *, int);
void mtx_destroy(mtx_t *);
int mtx_lock(mtx_t *);
int mtx_trylock(mtx_t *);
int mtx_unlock(mtx_t *);
int cnd_init(cnd_t *);
void cnd_destroy(cnd_t *);
int cnd_wait(cnd_t *, mtx_t *);
int cnd_signal(cnd_t *);
int cnd_broadcast(cnd_t *);

/* Made of a mutex and a number, by a function that is translated as those of the file are. */
typedef struct {
    _Atomic(_Bool) done;
    mtx_t guard;
} once_flag;
#define ONCE_FLAG_INIT {0}

static inline void call_once(once_flag *once, void (*make)(void))
{
    if (!once->done) {
        mtx_lock(&once->guard);
        if (!once->done) {
            make();
            once->done = 1;
        }
        mtx_unlock(&once->guard);
    }
}
#endif
