/* The types of <stdint.h> that c/include/ and c/exports/ use, for a compiler that has no headers of its own. */
#ifndef SLH_STDINT_H
#define SLH_STDINT_H

typedef __UINT8_TYPE__ uint8_t;
typedef __UINT16_TYPE__ uint16_t;
typedef __UINT32_TYPE__ uint32_t;
typedef __UINT64_TYPE__ uint64_t;

#endif
