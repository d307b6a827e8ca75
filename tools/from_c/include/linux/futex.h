/* What tools/fromc knows of <linux/futex.h>. */
#ifndef FROM_C_FUTEX_H
#define FROM_C_FUTEX_H
#define FUTEX_WAIT 0
#define FUTEX_WAKE 1
#define FUTEX_PRIVATE_FLAG 128
#define FUTEX_WAIT_PRIVATE 128
#define FUTEX_WAKE_PRIVATE 129
#endif
