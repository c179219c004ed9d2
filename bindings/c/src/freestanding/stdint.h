/* What the library takes of this header, for a compiler that comes without a C library. */
#ifndef TBR_STDINT_H
#define TBR_STDINT_H

typedef __UINT8_TYPE__ uint8_t;
typedef __UINT16_TYPE__ uint16_t;
typedef __UINT32_TYPE__ uint32_t;
typedef __INT64_TYPE__ int64_t;

#endif
