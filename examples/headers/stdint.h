/* What the library's header, the example and the comparison's driver use of <stdint.h>, for x86-64 Linux. */
#ifndef STDINT_H
#define STDINT_H
typedef unsigned char uint8_t;
typedef unsigned int uint32_t;
#define UINT32_MAX 4294967295U
#endif
