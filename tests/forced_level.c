/*
 * For a program that is linked with a libslh.a whose slh_ask_processor is weak (tests/machines.py makes it so):
 * the processor is the one of tests/processors.h that the variable PROCESSOR names. The library itself reads no
 * variable. For c/starter.c, which has no C library, the macro PROCESSOR is the place in the table.
 */
#include "processors.h"

#ifdef PROCESSOR
struct slh_processor slh_ask_processor(void) { return processors[PROCESSOR].it; }
#else
#include <stdlib.h>
#include <string.h>

struct slh_processor slh_ask_processor(void) {
    const char *name = getenv("PROCESSOR");
    for (int i = 0; i < PROCESSORS; i++)
        if (name != NULL && strcmp(name, processors[i].name) == 0) return processors[i].it;
    abort();
}
#endif
