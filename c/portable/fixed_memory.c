/* ---- The memory of all calls is one, so that one call runs at a time. ---- */

#ifdef SLH_VERIFY_MEMORY_AT
extern uint64_t SLH_VERIFY_MEMORY_AT[];
#define THE_MEMORY ((struct machine *)(void *)SLH_VERIFY_MEMORY_AT)
#else
static struct machine the_memory;
#define THE_MEMORY (&the_memory)
#endif

_Static_assert(MEMORY_BYTES <= UINT32_MAX - FIRST, "SLH_VERIFY_MEMORY is above what 32-bit addresses reach");

static void erase(void *bytes, size_t n) { memset(bytes, 0, n); }

/* Whether a call is under way: one that comes in meanwhile, from an interrupt or another thread, gets no memory. If the
   processor can't exchange a byte in one step, as Cortex-M0, only a call from an interrupt is certain to be seen. */
#ifdef EXCHANGES_BYTES
static atomic_uchar is_taken;
static unsigned char exchange(unsigned char it) { return atomic_exchange(&is_taken, it); }
#else
static volatile unsigned char is_taken;
static unsigned char exchange(unsigned char it) {
    unsigned char before = is_taken;
    is_taken = it;
    return before;
}
#endif

static struct machine *take_memory(size_t bytes) {
    return bytes <= MEMORY_BYTES && exchange(1) == 0 ? THE_MEMORY : NULL;
}

static void give_back(struct machine *m) {
    (void)m;
    (void)exchange(0);
}
