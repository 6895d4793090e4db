/* The type of <stddef.h> that the headers of c/include/ use, for a compiler that has no headers of its own. */
#ifndef SLH_STDDEF_H
#define SLH_STDDEF_H

typedef __SIZE_TYPE__ size_t;

#endif
