/* What the example and the comparison's driver use of <stdlib.h>, for x86-64 Linux. */
#ifndef STDLIB_H
#define STDLIB_H
#include <stddef.h>
void *malloc(size_t);
void *realloc(void *, size_t);
void free(void *);
void qsort(void *, size_t, size_t, int (*)(const void *, const void *));
unsigned long strtoul(const char *, char **, int);
void exit(int) __attribute__((noreturn));
#endif
