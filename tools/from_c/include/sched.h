/* What tools/fromc knows of <sched.h>. The call is built in. */
int sched_yield(void);
