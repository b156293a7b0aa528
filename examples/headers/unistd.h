/* What the example uses of <unistd.h>, for x86-64 Linux. */
#ifndef UNISTD_H
#define UNISTD_H
#include <stddef.h>
typedef long ssize_t;
#define _SC_THREAD_STACK_MIN 75
long sysconf(int);
ssize_t read(int, void *, size_t);
int close(int);
void _exit(int) __attribute__((noreturn));
#endif
