/* ---- The machine that the proved code is written for: a memory of bytes, whose addresses are numbers. ---- */

#if defined(__GNUC__)
#define RARELY(x) __builtin_expect(!!(x), 0)
#define INLINE static inline __attribute__((unused))
#define NEVER_INLINE __attribute__((noinline))
#define MAY_ALIAS __attribute__((may_alias))
#elif defined(_MSC_VER)
#define RARELY(x) (x)
#define INLINE static inline
#define NEVER_INLINE __declspec(noinline)
#define MAY_ALIAS
#else
#define RARELY(x) (x)
#define INLINE static inline
#define NEVER_INLINE
#define MAY_ALIAS
#endif

typedef uint8_t u8;
typedef int8_t s8;
typedef uint32_t u32;
typedef int32_t s32;
typedef uint64_t u64;
typedef int64_t s64;
#if ADDRESS_BITS == 64
typedef u64 address;
#else
typedef u32 address;
#endif

/* The stack, the constants, and the arguments of a call behind them. It may lie in an array of the caller's, which has
   another type. */
struct machine {
    u64 size;
    address stack_pointer;
    address in_call;
    uint8_t bytes[MEMORY_BYTES];
} MAY_ALIAS;
#define MACHINE_BYTES offsetof(struct machine, bytes)

/* The address of the first byte. No call goes below it: STACK_BYTES is the stack of the deepest path of calls. */
#define FIRST (STACK_TOP - STACK_BYTES)

/* The type of each function's argument m: the place of address 0 on this machine. It is a number and no pointer, since
   no object is there. With it an access takes one addition, and a compiler needs no constant for FIRST. */
typedef uintptr_t base;
#define BASE(machine) ((uintptr_t)(machine)->bytes - (uintptr_t)FIRST)
#define MACHINE(m) ((struct machine *)((m) + (uintptr_t)FIRST - MACHINE_BYTES))
#define STACK_POINTER(m) (MACHINE(m)->stack_pointer)
#define IN_CALL(m) (MACHINE(m)->in_call)

#ifdef SLH_TRAP
void SLH_TRAP(const char *why);
#else
#define SLH_TRAP(why) STOP(why)
#endif

/* Ends the program, or stays here for ever. The proved code never calls it. If the translated code does, then a
   translator, the compiler or the machine is at fault, or STACK_BYTES is too small. No proof covers these. */
static _Noreturn void trap(const char *why) {
    SLH_TRAP(why);
    for (;;) {}
}

#define UNREACHABLE trap("slh: the proved code came where it never comes")

/* The n bytes at an address. */
INLINE uint8_t *at(base m, address where, u64 n) {
#ifdef SLH_CHECK_MEMORY
    u64 index = (address)(where - FIRST);
    if (RARELY(index > MACHINE(m)->size || n > MACHINE(m)->size - index)) trap("slh: the proved code left its memory");
#else
    (void)n;
#endif
    return (uint8_t *)(m + (uintptr_t)where);
}

/* Numbers lie in memory with their lowest byte first. On a little-endian processor they are copied, of which a compiler
   makes one load or store. On others they are made of their bytes. */
#if defined(_MSC_VER) || (defined(__BYTE_ORDER__) && __BYTE_ORDER__ == __ORDER_LITTLE_ENDIAN__)
INLINE u32 get32(const uint8_t *it) {
    u32 number;
    memcpy(&number, it, sizeof number);
    return number;
}
INLINE u64 get64(const uint8_t *it) {
    u64 number;
    memcpy(&number, it, sizeof number);
    return number;
}
INLINE void put32(uint8_t *it, u32 number) { memcpy(it, &number, sizeof number); }
INLINE void put64(uint8_t *it, u64 number) { memcpy(it, &number, sizeof number); }
#else
INLINE u32 get32(const uint8_t *it) { return (u32)it[0] | (u32)it[1] << 8 | (u32)it[2] << 16 | (u32)it[3] << 24; }
INLINE u64 get64(const uint8_t *it) { return get32(it) | (u64)get32(it + 4) << 32; }
INLINE void put32(uint8_t *it, u32 number) {
    it[0] = (uint8_t)number;
    it[1] = (uint8_t)(number >> 8);
    it[2] = (uint8_t)(number >> 16);
    it[3] = (uint8_t)(number >> 24);
}
INLINE void put64(uint8_t *it, u64 number) {
    put32(it, (u32)number);
    put32(it + 4, (u32)(number >> 32));
}
#endif
INLINE u32 get16(const uint8_t *it) { return (u32)it[0] | (u32)it[1] << 8; }
INLINE void put16(uint8_t *it, u32 number) {
    it[0] = (uint8_t)number;
    it[1] = (uint8_t)(number >> 8);
}

#define i32_load(m, address) get32(at(m, address, 4))
#define i64_load(m, address) get64(at(m, address, 8))
#define i32_load8_u(m, address) ((u32) * at(m, address, 1))
#define i64_load8_u(m, address) ((u64) * at(m, address, 1))
#define i32_load8_s(m, address) (((u32) * at(m, address, 1) ^ 0x80) - 0x80)
#define i32_load16_u(m, address) get16(at(m, address, 2))
#define i64_load16_u(m, address) ((u64)get16(at(m, address, 2)))
#define i64_load32_u(m, address) ((u64)get32(at(m, address, 4)))
#define i32_store(m, address, value) put32(at(m, address, 4), value)
#define i64_store(m, address, value) put64(at(m, address, 8), value)
#define i32_store8(m, address, value) ((void)(*at(m, address, 1) = (uint8_t)(value)))
#define i64_store8(m, address, value) ((void)(*at(m, address, 1) = (uint8_t)(value)))
#define i32_store16(m, address, value) put16(at(m, address, 2), value)
#define i64_store16(m, address, value) put16(at(m, address, 2), (u32)(value))
#define i64_store32(m, address, value) put32(at(m, address, 4), (u32)(value))

INLINE void memory_copy(base m, address to, address from, address n) {
    if (n > 0) memmove(at(m, to, n), at(m, from, n), (size_t)n);
}
INLINE void memory_fill(base m, address to, u32 byte, address n) {
    if (n > 0) memset(at(m, to, n), (uint8_t)byte, (size_t)n);
}

#define I32_ROTL(x, y) ((x) << ((y) & 31) | (x) >> (-(y) & 31))
#define I64_ROTL(x, y) ((x) << ((y) & 63) | (x) >> (-(y) & 63))
#define I32_ROTR(x, y) ((x) >> ((y) & 31) | (x) << (-(y) & 31))
#define I64_ROTR(x, y) ((x) >> ((y) & 63) | (x) << (-(y) & 63))

/* The proved code divides by no zero. */
#define DIVIDE(x, op, y) (RARELY((y) == 0) ? (trap("slh: the proved code divided by zero"), (x)) : (x) op (y))
#define DIV_U(x, y) DIVIDE(x, /, y)
#define REM_U(x, y) DIVIDE(x, %, y)

/* The number of zero bits below the lowest bit that is one. */
INLINE u32 I32_CTZ(u32 it) {
    u32 zeros = 0;
    while (zeros < 32 && (it >> zeros & 1) == 0) zeros++;
    return zeros;
}
INLINE u64 I64_CTZ(u64 it) {
    u64 zeros = 0;
    while (zeros < 64 && (it >> zeros & 1) == 0) zeros++;
    return zeros;
}
