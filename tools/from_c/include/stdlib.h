/* What tools/fromc knows of <stdlib.h>. abort is built in. */
#ifndef FROM_C_STDLIB_H
#define FROM_C_STDLIB_H
#include <stddef.h>
#define EXIT_SUCCESS 0
#define EXIT_FAILURE 1
_Noreturn void abort(void);
_Noreturn void exit(int);
void *malloc(size_t);
void *calloc(size_t, size_t);
void free(void *);
#endif
