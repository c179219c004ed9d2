/* What the library takes of this header, for a compiler that comes without a C library. */
#ifndef TBR_STDDEF_H
#define TBR_STDDEF_H

typedef __SIZE_TYPE__ size_t;
#define NULL ((void *)0)

#endif
