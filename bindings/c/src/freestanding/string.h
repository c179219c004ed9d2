/* What the library takes of this header, for a compiler that comes without a C library. */
#ifndef TBR_STRING_H
#define TBR_STRING_H

#include <stddef.h>

void *memcpy(void *to, const void *from, size_t bytes);
void *memset(void *at, int byte, size_t bytes);
size_t strlen(const char *text);

#endif
