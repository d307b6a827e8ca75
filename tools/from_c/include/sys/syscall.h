/* What tools/fromc knows of <sys/syscall.h>: futexes. The call is built in. */
#ifndef FROM_C_SYSCALL_H
#define FROM_C_SYSCALL_H
#define SYS_futex 202
#define __NR_futex 202
#endif
