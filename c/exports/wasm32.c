/*
 * What the kit puts round each export of a WebAssembly module, for the module with a 32-bit memory, which it does not
 * link: a call after one that trapped traps, too, since that one may have left anything in memory. Nothing here is
 * proved. In the portable C each call has a new memory, so with SLH_UNGUARDED no call traps for that.
 */
#include <stdint.h>

_Bool __rattle_enter(void);
void __rattle_leave(void);

#ifdef SLH_UNGUARDED
_Bool __rattle_enter(void) { return 0; }

void __rattle_leave(void) {}
#else
static uint32_t in_call;

_Bool __rattle_enter(void) {
    uint32_t before = in_call;
    in_call = 1;
    return before != 0;
}

void __rattle_leave(void) { in_call = 0; }
#endif

void __rattle_trap(void);
void __rattle_trap(void) { __builtin_trap(); }
