/* What tools/fromc knows of <string.h>. The calls are built in. */
#ifndef FROM_C_STRING_H
#define FROM_C_STRING_H
#include <stddef.h>
void *memset(void *, int, size_t);
void *memcpy(void *, const void *, size_t);
#endif
