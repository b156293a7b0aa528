/* What the library's header, the example and the comparison's driver use of <stddef.h>, for x86-64 Linux. */
#ifndef STDDEF_H
#define STDDEF_H
typedef unsigned long size_t;
#define NULL ((void *)0)
#endif
