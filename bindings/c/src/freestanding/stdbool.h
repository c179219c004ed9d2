/* What C99 asks of this header, for a compiler that comes without a C library. */
#ifndef TBR_STDBOOL_H
#define TBR_STDBOOL_H

#define bool _Bool
#define true 1
#define false 0

#endif
