/* What tools/fromc knows of <stddef.h>. */
#ifndef FROM_C_STDDEF_H
#define FROM_C_STDDEF_H
typedef unsigned long size_t;
typedef long ptrdiff_t;
#define NULL ((void *)0)
#define offsetof(type, field) __builtin_offsetof(type, field)
#endif
