/* What tools/fromc knows of <errno.h>: what calls may give back. */
#ifndef FROM_C_ERRNO_H
#define FROM_C_ERRNO_H
#define EAGAIN 11
#define ENOMEM 12
#define EBUSY 16
#define EINVAL 22
#endif
