/* What tools/fromc knows of <stdio.h>: calls that print are built in, and print nothing. */
#ifndef FROM_C_STDIO_H
#define FROM_C_STDIO_H
#include <stddef.h>
typedef struct file FILE;
#define stdout ((FILE *)0)
#define stderr ((FILE *)0)
int printf(const char *, ...);
int fprintf(FILE *, const char *, ...);
int puts(const char *);
int fputs(const char *, FILE *);
int putchar(int);
int fflush(FILE *);
void perror(const char *);
#endif
