/* The header of the library, or what to set where the compiler does not find it. */
#if defined(__has_include) && !__has_include(<slh.h>)
#error "no slh.h: set CGO_CFLAGS=-IPREFIX/include and CGO_LDFLAGS=-LPREFIX/lib, with the PREFIX of tools/library.sh"
#else
#include <slh.h>
#endif

#ifdef _WIN32
typedef int signals;
static inline void block_signals(signals *before) { *before = 0; }
static inline void restore_signals(const signals *before) { (void)before; }
#else
#include <signal.h>
typedef sigset_t signals;
/* Blocks all signals for this thread but those of its own faults, and tells which were blocked before. */
static inline void block_signals(signals *before) {
    sigset_t all;
    sigfillset(&all);
    sigdelset(&all, SIGSEGV);
    sigdelset(&all, SIGBUS);
    sigdelset(&all, SIGFPE);
    sigdelset(&all, SIGILL);
    pthread_sigmask(SIG_SETMASK, &all, before);
}
static inline void restore_signals(const signals *before) { pthread_sigmask(SIG_SETMASK, before, 0); }
#endif
