/* What the example and the comparison's driver use of <string.h>, for x86-64 Linux. */
#ifndef STRING_H
#define STRING_H
#include <stddef.h>
size_t strlen(const char *);
int strcmp(const char *, const char *);
char *strerror(int);
void *memset(void *, int, size_t);
#endif
