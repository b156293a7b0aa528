/* What the example uses of <fcntl.h>, for x86-64 Linux. */
#ifndef FCNTL_H
#define FCNTL_H
#define O_RDONLY 0
#define O_NONBLOCK 04000
int open(const char *, int, ...);
#endif
