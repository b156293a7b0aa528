/* What the example uses of <errno.h>, for x86-64 Linux. Each thread has an errno of its own, and the C library says where it is. */
#ifndef ERRNO_H
#define ERRNO_H
int *__errno_location(void);
#define errno (*__errno_location())
#define EINTR 4
#define ENOMEM 12
#endif
