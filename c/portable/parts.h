/* ---- The calls: arguments go into the memory of the proved code, and results out of it. ---- */

/* An argument that is bytes: to be read, or to be written. */
struct part {
    const void *in;
    void *out;
    size_t len;
    address begin;
};

#define READ(name) {name, NULL, name##_len, 0}
#define WRITE(name) {NULL, name, name##_len, 0}
#define COUNT(parts) (sizeof(parts) / sizeof(parts)[0])

/* Each argument begins at a multiple of 16, since the proved code takes aligned numbers. */
#define ALIGNED(n) (((n) + 15) / 16 * 16)
#define PARTS_AT ALIGNED(STACK_BYTES + CONSTANT_BYTES)

#if SLH_VERSION_NUMBER != MODULE_VERSION
#error "slh_verify.h is of another version than this file"
#endif
#ifdef SLH_VERIFY_MEMORY
/* The public key, the context and the digest, each at a multiple of 16. */
_Static_assert(MACHINE_BYTES + PARTS_AT + SLH_MAX_PUBLIC_KEY + ALIGNED(SLH_MAX_CONTEXT) + 64 <=
                   SLH_VERIFY_MEMORY_FOR(0, 0),
               "slh_verify.h grants a set less memory than it takes");
#endif

/* Gives each part a place, and returns the number of bytes of memory that the call needs. It returns 0 if that is more
   than half of the greatest size_t. */
static size_t placed(struct part *parts, size_t count) {
    size_t size = PARTS_AT;
    for (size_t i = 0; i < count; i++) {
        if (size > SIZE_MAX / 2 || parts[i].len > SIZE_MAX / 2 - size) return 0;
        parts[i].begin = (address)(FIRST + size);
        size += ALIGNED(parts[i].len);
    }
    return size;
}

#define PLACE(m, part) ((m)->bytes + (size_t)((part).begin - FIRST))

/* A memory with the parts in it, or null. */
static struct machine *begin(struct part *parts, size_t count) {
    size_t size = placed(parts, count);
    struct machine *m = size > 0 ? take_memory(size) : NULL;
    if (m == NULL) return NULL;
    m->stack_pointer = STACK_TOP;
    m->size = size;
    m->in_call = 0;
    memcpy(m->bytes + STACK_BYTES, constants, CONSTANT_BYTES);
    for (size_t i = 0; i < count; i++)
        if (parts[i].in != NULL && parts[i].len > 0) memcpy(PLACE(m, parts[i]), parts[i].in, parts[i].len);
    return m;
}

/* Copies the results to the caller if the call has succeeded, erases the memory and frees it. */
static u32 end(struct machine *m, const struct part *parts, size_t count, u32 result) {
    for (size_t i = 0; result == SLH_DONE && i < count; i++)
        if (parts[i].out != NULL && parts[i].len > 0) memcpy(parts[i].out, PLACE(m, parts[i]), parts[i].len);
    erase(m, MACHINE_BYTES + (size_t)m->size);
    give_back(m);
    return result;
}

/* The arguments of the proved code for a part: its address and its length; its address alone. */
#define B(i) parts[i].begin, (u64)parts[i].len
#define P(i) parts[i].begin

/* Runs a call of the proved code over the parts: `result` is what it returns. */
#define RUN(call, ...)                                                                          \
    u32 result = SLH_NO_MEMORY;                                                                 \
    struct machine *m = begin(parts, COUNT(parts));                                             \
    if (m != NULL) result = end(m, parts, COUNT(parts), module_##call(BASE(m), __VA_ARGS__))
