/* ---- The memory of a call is taken by malloc, so that any number of threads may call. ---- */

/* A compiler can't leave this out: it does not know which function it calls. */
static void *(*const volatile set_bytes)(void *, int, size_t) = memset;
static void erase(void *bytes, size_t n) { set_bytes(bytes, 0, n); }

static struct machine *take_memory(size_t bytes) { return malloc(MACHINE_BYTES + bytes); }
static void give_back(struct machine *m) { free(m); }
