/*
 * Searches what each call that takes secrets leaves below its caller on the stack, and in registers, for
 *
 * - SK.seed and SK.prf, and both midstates of the HMAC key of tags, inner and outer;
 * - the WOTS+ and FORS secrets that the signature does not publish, and the values of the signing keys' chains that
 *   stand before those that it publishes.
 *
 * Whole values are found, in either byte order of words of 32 or 64 bits, in a row or spread over lanes. They are
 * computed here, by tests/sha2_steps.h, and compared with what signatures and starts publish. Each call runs on a
 * stack of its own, which was painted.
 *
 * usage: library_erase [SET ..]      numbers of sets, without any all six
 *
 * For Linux on x86-64, ARM and 64-bit RISC-V, and for Windows on x86-64. A line tells of each call how deep it went on the stack, in bytes, and what was
 * found. The last line has the counts, and the status is 0 where nothing was found.
 */
#define _GNU_SOURCE
#include <slh_internal.h>

#include "sha2_steps.h"

#include <stdio.h>
#include <stdlib.h>
#include <string.h>

/* What an argument takes. */
typedef uintptr_t word;

enum { STACK = 1 << 20, PAINT = 0x5c, ARGS = 18, REGISTERS = 4096, MOST_FEW = 8, WOTS_HASH = 0, WOTS_PRF = 5,
       FORS_PRF = 6, MOST_JOB = 65536, HINTS = 1 << 24 };

/* Of each set the numbers of FIPS 205's Table 2, and the number of values of a WOTS+ signature. */
static const struct {
    uint32_t d, hp, a, k, len;
} sets[7] = {{0, 0, 0, 0, 0},    {7, 9, 12, 14, 35}, {22, 3, 6, 33, 35}, {7, 9, 14, 17, 51},
             {22, 3, 8, 33, 51}, {8, 8, 14, 22, 67}, {17, 4, 9, 35, 67}};

static void must(int holds, const char *what) {
    if (holds) return;
    printf("library_erase: %s\n0 passed, 1 failed\n", what);
    exit(2);
}

/*
 * Calls a function on another stack, and writes all registers into `saved` right after it. The machine's width of
 * vectors is 16, 32 or 64 bytes. The arguments that go into no register go onto that stack: ON_STACK bytes in all.
 */
uint32_t on_stack(void (*call)(void), const word args[ARGS], uint8_t *top, word width);
_Alignas(64) uint8_t saved[REGISTERS];

#define X86_REGISTERS                                                                                                  \
    "mov %rbx,8(%rax)\nmov %rcx,16(%rax)\nmov %rdx,24(%rax)\nmov %rsi,32(%rax)\nmov %rdi,40(%rax)\n"                   \
    "mov %r8,48(%rax)\nmov %r9,56(%rax)\nmov %r10,64(%rax)\nmov %r11,72(%rax)\nmov %r12,80(%rax)\n"                    \
    "mov %r13,88(%rax)\nmov %r14,96(%rax)\nmov %r15,104(%rax)\nmov (%rsp),%rcx\nmov %rcx,(%rax)\n"                    \
    "cmp $32,%r12\nje 2f\nja 3f\n"                                                                                     \
    ".irp n,0,1,2,3,4,5,6,7,8,9,10,11,12,13,14,15\nmovdqu %xmm\\n,128+16*\\n(%rax)\n.endr\njmp 4f\n"                  \
    "2:\n.irp n,0,1,2,3,4,5,6,7,8,9,10,11,12,13,14,15\nvmovdqu %ymm\\n,128+32*\\n(%rax)\n.endr\njmp 4f\n"             \
    "3:\n.irp n,0,1,2,3,4,5,6,7,8,9,10,11,12,13,14,15,16,17,18,19,20,21,22,23,24,25,26,27,28,29,30,31\n"               \
    "vmovdqu64 %zmm\\n,128+64*\\n(%rax)\n.endr\n"                                                                     \
    ".irp n,0,1,2,3,4,5,6,7\nkmovw %k\\n,%ecx\nmov %rcx,2304+8*\\n(%rax)\n.endr\n4:\n"

#if defined(_WIN32)
enum { VECTORS = 128, ON_STACK = 144 };
__asm__(".text\n.globl on_stack\non_stack:\n"
        "push %rbp\npush %rbx\npush %rsi\npush %rdi\npush %r12\npush %r13\npush %r14\npush %r15\nsub $168,%rsp\n"
        ".irp n,6,7,8,9,10,11,12,13,14,15\nmovdqu %xmm\\n,16*(\\n-6)(%rsp)\n.endr\n"
        "mov %rsp,%rbp\nmov %r9,%r12\nmov %rcx,%rax\nmov %rdx,%r10\nmov %r8,%rsp\nsub $144,%rsp\n"
        "lea 32(%r10),%rsi\nlea 32(%rsp),%rdi\nmov $14,%ecx\ncld\nrep movsq\n"
        "mov (%r10),%rcx\nmov 8(%r10),%rdx\nmov 16(%r10),%r8\nmov 24(%r10),%r9\ncall *%rax\n"
        "mov %rbp,%rsp\npush %rax\nlea saved(%rip),%rax\n" X86_REGISTERS "pop %rax\n"
        ".irp n,6,7,8,9,10,11,12,13,14,15\nmovdqu 16*(\\n-6)(%rsp),%xmm\\n\n.endr\n"
        "add $168,%rsp\npop %r15\npop %r14\npop %r13\npop %r12\npop %rdi\npop %rsi\npop %rbx\npop %rbp\nret\n");
#elif defined(__x86_64__)
enum { VECTORS = 128, ON_STACK = 96 };
__asm__(".text\n.globl on_stack\n.type on_stack,@function\non_stack:\n"
        "push %rbp\npush %rbx\npush %r12\npush %r13\npush %r14\npush %r15\n"
        "mov %rsp,%rbp\nmov %rcx,%r12\nmov %rdi,%rax\nmov %rsi,%r10\nmov %rdx,%rsp\nsub $96,%rsp\n"
        "lea 48(%r10),%rsi\nmov %rsp,%rdi\nmov $12,%ecx\ncld\nrep movsq\n"
        "mov (%r10),%rdi\nmov 8(%r10),%rsi\nmov 16(%r10),%rdx\nmov 24(%r10),%rcx\nmov 32(%r10),%r8\n"
        "mov 40(%r10),%r9\ncall *%rax\n"
        "mov %rbp,%rsp\npush %rax\nlea saved(%rip),%rax\n" X86_REGISTERS
        "pop %rax\npop %r15\npop %r14\npop %r13\npop %r12\npop %rbx\npop %rbp\nret\n"
        ".size on_stack,.-on_stack\n");
#elif defined(__aarch64__)
enum { VECTORS = 256, ON_STACK = 96 };
__asm__(".text\n.globl on_stack\n.type on_stack,%function\non_stack:\n"
        "stp x29,x30,[sp,#-16]!\nstp x19,x20,[sp,#-16]!\nmov x19,sp\nmov x9,x0\nmov x10,x1\nmov sp,x2\n"
        "sub sp,sp,#96\nadd x11,x10,#64\nmov x12,sp\nmov x13,#10\n"
        "1:\nldr x14,[x11],#8\nstr x14,[x12],#8\nsubs x13,x13,#1\nb.ne 1b\n"
        "ldp x0,x1,[x10]\nldp x2,x3,[x10,#16]\nldp x4,x5,[x10,#32]\nldp x6,x7,[x10,#48]\nblr x9\n"
        "mov sp,x19\nstr x0,[sp,#-16]!\nadrp x0,saved\nadd x0,x0,:lo12:saved\n"
        ".irp n,1,2,3,4,5,6,7,8,9,10,11,12,13,14,15,16,17,18,19,20,21,22,23,24,25,26,27,28,29,30\n"
        "str x\\n,[x0,#8*\\n]\n.endr\n"
        ".irp n,0,1,2,3,4,5,6,7,8,9,10,11,12,13,14,15,16,17,18,19,20,21,22,23,24,25,26,27,28,29,30,31\n"
        "str q\\n,[x0,#256+16*\\n]\n.endr\n"
        "ldr x0,[sp],#16\nldp x19,x20,[sp],#16\nldp x29,x30,[sp],#16\nret\n.size on_stack,.-on_stack\n");
#elif defined(__riscv)
enum { VECTORS = 256, ON_STACK = 96 };
__asm__(".text\n.globl on_stack\n.type on_stack,@function\non_stack:\n"
        "addi sp,sp,-32\nsd ra,0(sp)\nsd s0,8(sp)\nsd s1,16(sp)\nmv s0,sp\nmv t0,a0\nmv t1,a1\naddi sp,a2,-96\n"
        "addi t2,t1,64\nmv t3,sp\nli t4,10\n"
        "1:\nld t5,0(t2)\nsd t5,0(t3)\naddi t2,t2,8\naddi t3,t3,8\naddi t4,t4,-1\nbnez t4,1b\n"
        "ld a0,0(t1)\nld a2,16(t1)\nld a3,24(t1)\nld a4,32(t1)\nld a5,40(t1)\nld a6,48(t1)\nld a7,56(t1)\n"
        "ld a1,8(t1)\njalr t0\nmv sp,s0\nmv s1,a0\nla a0,saved\n"
        ".irp n,1,2,3,4,5,6,7,8,9,11,12,13,14,15,16,17,18,19,20,21,22,23,24,25,26,27,28,29,30,31\n"
        "sd x\\n,8*\\n(a0)\n.endr\n"
        ".irp n,0,1,2,3,4,5,6,7,8,9,10,11,12,13,14,15,16,17,18,19,20,21,22,23,24,25,26,27,28,29,30,31\n"
        "fsd f\\n,256+8*\\n(a0)\n.endr\n"
        "mv a0,s1\nld ra,0(sp)\nld s0,8(sp)\nld s1,16(sp)\naddi sp,sp,32\nret\n.size on_stack,.-on_stack\n");
#elif defined(__arm__)
enum { VECTORS = 64, ON_STACK = 64 };
__asm__(".text\n.arm\n.fpu neon\n.p2align 2\n.globl on_stack\n.type on_stack,%function\non_stack:\n"
        "push {r4-r11,lr}\nmov r4,sp\nmov r12,r0\nmov r5,r1\nsub sp,r2,#64\nadd r6,r5,#16\nmov r7,sp\nmov r8,#14\n"
        "1:\nldr r9,[r6],#4\nstr r9,[r7],#4\nsubs r8,r8,#1\nbne 1b\n"
        "ldm r5,{r0-r3}\nblx r12\nmov sp,r4\npush {r0}\nldr r0,3f\n"
        "stm r0,{r0-r12}\nstr lr,[r0,#56]\nadd r0,r0,#64\nvstmia r0!,{d0-d15}\nvstmia r0!,{d16-d31}\n"
        "pop {r0}\npop {r4-r11,pc}\n3:\n.word saved\n.size on_stack,.-on_stack\n");
#endif

static word vector_width(void) {
#if defined(__x86_64__)
    return __builtin_cpu_supports("avx512f") ? 64 : __builtin_cpu_supports("avx2") ? 32 : 16;
#else
    return 16;
#endif
}

/* How a value may lie: words of so many bytes that stand `stride` apart, its first byte `shift` bytes into a word. */
struct layout {
    uint8_t word, stride, is_turned, shift;
};

static struct layout layouts[256];
static size_t layout_count;

static void make_layouts(void) {
    static const uint8_t strides[] = {4, 8, 16, 32, 64, 128};
    layouts[layout_count++] = (struct layout){1, 1, 0, 0};
    for (uint8_t word = 4; word <= 8; word += 4)
        for (size_t i = 0; i < sizeof strides; i++)
            for (uint8_t is_turned = 0; is_turned < 2; is_turned++)
                for (uint8_t shift = 0; shift < word; shift++)
                    if (strides[i] >= word && (strides[i] > word || is_turned))
                        layouts[layout_count++] = (struct layout){word, strides[i], is_turned, shift};
}

/* Where the byte i of a value stands that begins at 0. */
static size_t offset(struct layout l, size_t i) {
    size_t at = i + l.shift;
    return at / l.word * l.stride + (l.is_turned ? l.word - 1 - at % l.word : at % l.word);
}

/* A value that is searched for. What a signature publishes is no secret. */
struct value {
    uint8_t bytes[64];
    uint8_t len, kind, is_public;
};

enum kind { SK_SEED, SK_PRF, INNER, OUTER, WOTS, CHAIN, FORS, KINDS };
static const char *kinds[KINDS] = {"SK.seed", "SK.prf", "inner midstate", "outer midstate", "WOTS+", "chain", "FORS"};

/* All values, found by their first 8 bytes: a table with a hint of one bit beside. */
static struct value *values;
static uint32_t *slots;
static uint8_t *hints;
static size_t value_count, slot_count;

static uint64_t first_bytes(const uint8_t *bytes) {
    uint64_t it;
    memcpy(&it, bytes, sizeof it);
    return it;
}

static uint64_t mixed(uint64_t it) { return (it ^ it >> 29) * 0x9e3779b97f4a7c15; }

static void forget(size_t room) {
    free(values), free(slots), free(hints);
    for (slot_count = 1; slot_count < 2 * room;) slot_count *= 2;
    values = malloc(room * sizeof *values);
    slots = calloc(slot_count, sizeof *slots);
    hints = calloc(HINTS / 8, 1);
    must(values != NULL && slots != NULL && hints != NULL, "no memory");
    value_count = 0;
}

static struct value *seek(const uint8_t *bytes, size_t len) {
    for (size_t slot = mixed(first_bytes(bytes)) % slot_count; slots[slot] != 0; slot = (slot + 1) % slot_count) {
        struct value *it = &values[slots[slot] - 1];
        if (it->len == len && memcmp(it->bytes, bytes, len) == 0) return it;
    }
    return NULL;
}

static void add(enum kind kind, const uint8_t *bytes, size_t len) {
    size_t slot = mixed(first_bytes(bytes)) % slot_count, hint = mixed(first_bytes(bytes)) >> 40;
    if (seek(bytes, len) != NULL) return;
    while (slots[slot] != 0) slot = (slot + 1) % slot_count;
    values[value_count] = (struct value){.len = (uint8_t)len, .kind = (uint8_t)kind};
    memcpy(values[value_count].bytes, bytes, len);
    slots[slot] = (uint32_t)++value_count;
    hints[hint / 8] |= (uint8_t)(1 << hint % 8);
}

/* Whether a value stands at `at` of these bytes in a layout. */
static const struct value *value_at(const uint8_t *bytes, size_t len, size_t at, struct layout l) {
    uint8_t first[8];
    if (at + offset(l, 7) + l.word > len) return NULL;
    for (size_t i = 0; i < 8; i++) first[i] = bytes[at + offset(l, i)];
    uint64_t mix = mixed(first_bytes(first));
    if (!(hints[(mix >> 40) / 8] >> ((mix >> 40) % 8) & 1)) return NULL;
    for (size_t slot = mix % slot_count; slots[slot] != 0; slot = (slot + 1) % slot_count) {
        const struct value *it = &values[slots[slot] - 1];
        size_t same = 0;
        if (it->is_public || at + offset(l, it->len - 1u) + l.word > len) continue;
        while (same < it->len && bytes[at + offset(l, same)] == it->bytes[same]) same++;
        if (same == it->len) return it;
    }
    return NULL;
}

static void search_by(struct layout l, const uint8_t *bytes, size_t len, long found[KINDS]) {
    for (size_t at = 0; at < len; at += l.word) {
        const struct value *it = value_at(bytes, len, at, l);
        if (it != NULL) found[it->kind]++;
    }
}

static void search(const uint8_t *bytes, size_t len, long found[KINDS]) {
    for (size_t i = 0; i < layout_count; i++) search_by(layouts[i], bytes, len, found);
}

/* A set, its key, and a message in one of both forms, with what is signed and where. */
struct work {
    uint32_t set, bits;
    size_t pk_len, sk_len, sig_len, n, start_len, answers_len;
    uint32_t jobs, xmss_jobs;
    uint8_t seeds[3 * SLH_MAX_N], sk[SLH_MAX_SECRET_KEY], start[SLH_MAX_START], sig[SLH_MAX_SIGNATURE];
    uint8_t *answers, *key_answers;
    uint64_t seeded[8], idx_tree;
    uint32_t idx_leaf;
};

static const uint8_t msg[] = "a message that is signed", formatted[] = "\0\0a message that is signed";
static uint8_t digest[32], out[SLH_MAX_SIGNATURE], scratch[2 * SLH_MAX_SIGNATURE], job_out[MOST_JOB];
static int passed, failed;

/* F and PRF of FIPS 205, section 11.2, which are the same: under PK.seed, whose block was hashed before. */
static void f(const struct work *w, uint32_t layer, uint64_t tree, uint8_t type, const uint32_t words[3],
              const uint8_t *value, uint8_t *to) {
    uint8_t text[22 + SLH_MAX_N], whole[32];
    uint64_t state[8];
    text[0] = (uint8_t)layer;
    for (int i = 0; i < 8; i++) text[1 + i] = (uint8_t)(tree >> (56 - 8 * i));
    text[9] = type;
    for (int i = 0; i < 12; i++) text[10 + i] = (uint8_t)(words[i / 4] >> (24 - 8 * (i % 4)));
    memcpy(text + 22, value, w->n);
    memcpy(state, w->seeded, sizeof state);
    sha2_end(state, 32, text, 22 + w->n, 64 + 22 + w->n, whole);
    memcpy(to, whole, w->n);
}

static void hash_seed(struct work *w) {
    uint8_t block[64] = {0};
    memcpy(block, w->seeds + 2 * w->n, w->n);
    sha2_first(w->seeded, 32);
    sha2_block(w->seeded, 32, block);
}

/* A midstate of HMAC under the first `key_len` bytes of SK.prf, SK.seed, PK.seed and 1, with this pad. */
static void midstate(const struct work *w, size_t key_len, uint8_t pad, uint64_t state[8]) {
    uint8_t key[3 * SLH_MAX_N + 1], block[128];
    memcpy(key, w->seeds + w->n, w->n);
    memcpy(key + w->n, w->seeds, w->n);
    memcpy(key + 2 * w->n, w->seeds + 2 * w->n, w->n);
    key[3 * w->n] = 1;
    for (size_t i = 0; i < 2 * w->bits; i++) block[i] = (i < key_len ? key[i] : 0) ^ pad;
    sha2_first(state, w->bits);
    sha2_block(state, w->bits, block);
}

/* Whether the tag of the start is HMAC under this key of a text with this number of the encoding. */
static int is_tag(const struct work *w, size_t key_len, uint8_t encoding) {
    const uint8_t lg_w = 4;
    uint64_t state[8];
    uint8_t text[8 + 2 * SLH_MAX_N + SLH_MAX_START], whole[64];
    uint8_t head[8] = {1, encoding, (uint8_t)w->n, lg_w, (uint8_t)sets[w->set].hp, (uint8_t)sets[w->set].d,
                       (uint8_t)sets[w->set].a, (uint8_t)sets[w->set].k};
    size_t begun = w->start_len - w->n, len = 8 + w->n + begun;
    memcpy(text, head, 8);
    memcpy(text + 8, w->sk + 3 * w->n, w->n);
    memcpy(text + 8 + w->n, w->start, begun);
    midstate(w, key_len, 0x36, state);
    sha2_end(state, w->bits, text, len, 2 * w->bits + len, whole);
    midstate(w, key_len, 0x5c, state);
    sha2_end(state, w->bits, whole, w->bits, 3 * w->bits, whole);
    return memcmp(whole, w->start + begun, w->n) == 0;
}

/* The key's parts, and the midstates of the tags' key, which is the one under which the start has its tag. */
static void add_key(const struct work *w) {
    uint64_t state[8];
    uint8_t bytes[64];
    size_t key_len = 0;
    for (size_t more = 0; more < 2; more++)
        for (uint8_t encoding = 1; encoding < 9; encoding++)
            if (is_tag(w, 3 * w->n + more, encoding)) key_len = 3 * w->n + more;
    must(key_len > 0, "the tag of a start is under no key that this program knows");
    add(SK_SEED, w->seeds, w->n);
    add(SK_PRF, w->seeds + w->n, w->n);
    for (int is_outer = 0; is_outer < 2; is_outer++) {
        midstate(w, key_len, is_outer ? 0x5c : 0x36, state);
        sha2_bytes(state, w->bits, bytes);
        add(is_outer ? OUTER : INNER, bytes, w->bits);
    }
}

static uint64_t number(const uint8_t *bytes, size_t len, uint32_t bits) {
    uint64_t it = 0;
    for (size_t i = 0; i < len; i++) it = it << 8 | bytes[i];
    return bits < 64 ? it & (((uint64_t)1 << bits) - 1) : it;
}

static uint32_t fors_index(const struct work *w, uint32_t tree) {
    uint32_t it = 0, a = sets[w->set].a;
    for (uint32_t bit = tree * a; bit < (tree + 1) * a; bit++)
        it = it << 1 | (w->start[w->n + bit / 8] >> (7 - bit % 8) & 1);
    return it;
}

/* All FORS secrets of the message. One of each tree is in the signature, where it must be the one computed here. */
static void add_fors(const struct work *w) {
    uint8_t it[SLH_MAX_N];
    for (uint32_t j = 0; j < sets[w->set].k; j++)
        for (uint32_t i = 0; i < 1u << sets[w->set].a; i++) {
            const uint32_t words[3] = {w->idx_leaf, 0, (j << sets[w->set].a) + i};
            const uint8_t *part = w->sig + w->n + w->n * j * (1 + sets[w->set].a);
            f(w, 0, w->idx_tree, FORS_PRF, words, w->seeds, it);
            add(FORS, it, w->n);
            if (i == fors_index(w, j)) must(memcmp(it, part, w->n) == 0, "a FORS secret is another in the signature");
        }
}

/* The values of a chain before the one that the signature publishes, which must be among the 16. */
static void add_chain(const struct work *w, uint32_t layer, uint64_t tree, uint32_t leaf, uint32_t chain,
                      const uint8_t *secret, const uint8_t *published) {
    uint8_t it[SLH_MAX_N];
    memcpy(it, secret, w->n);
    for (uint32_t step = 0; memcmp(it, published, w->n) != 0; step++) {
        const uint32_t words[3] = {leaf, chain, step};
        must(step < 15, "a value of the signature is in no chain");
        add(CHAIN, it, w->n);
        f(w, layer, tree, WOTS_HASH, words, it, it);
    }
}

/* The WOTS+ secrets of all leaves of the trees that sign. */
static void add_wots(const struct work *w) {
    uint32_t hp = sets[w->set].hp, len = sets[w->set].len, leaf = w->idx_leaf;
    size_t first = w->n + w->n * sets[w->set].k * (1 + sets[w->set].a);
    uint64_t tree = w->idx_tree;
    uint8_t it[SLH_MAX_N];
    for (uint32_t layer = 0; layer < sets[w->set].d; layer++) {
        for (uint32_t pair = 0; pair < 1u << hp; pair++)
            for (uint32_t chain = 0; chain < len; chain++) {
                const uint32_t words[3] = {pair, chain, 0};
                const uint8_t *published = w->sig + first + w->n * ((len + hp) * layer + chain);
                f(w, layer, tree, WOTS_PRF, words, w->seeds, it);
                add(WOTS, it, w->n);
                if (pair == leaf) add_chain(w, layer, tree, pair, chain, it, published);
            }
        leaf = (uint32_t)(tree & ((1u << hp) - 1));
        tree >>= hp;
    }
}

/* All secrets of a key and a message, whose start and signature are in w. */
static void learn(struct work *w) {
    uint32_t d = sets[w->set].d, hp = sets[w->set].hp;
    size_t md = (sets[w->set].k * sets[w->set].a + 7) / 8, tree_len = ((d - 1) * hp + 7) / 8;
    const uint8_t *at = w->start + w->n + md;
    w->idx_tree = number(at, tree_len, (d - 1) * hp);
    w->idx_leaf = (uint32_t)number(at + tree_len, (hp + 7) / 8, hp);
    forget(16 + ((size_t)sets[w->set].k << sets[w->set].a) + d * sets[w->set].len * (((size_t)1 << hp) + 16));
    add_key(w);
    add_fors(w);
    add_wots(w);
    for (size_t at_sig = 0; at_sig < w->sig_len; at_sig += w->n) {
        struct value *it = seek(w->sig + at_sig, w->n);
        if (it != NULL) it->is_public = 1;
    }
}

/* A value of each kind is found in each layout, so that a search that finds nothing says something. */
static void try_search(void) {
    static uint8_t room[64 * 128 + 128];
    for (int kind = 0; kind < KINDS; kind++) {
        const struct value *it = values;
        while (it < values + value_count && (it->kind != kind || it->is_public)) it++;
        must(it < values + value_count, "there is no value of a kind");
        for (size_t i = 0; i < layout_count; i++) {
            long found[KINDS] = {0};
            memset(room, PAINT, sizeof room);
            search_by(layouts[i], room, sizeof room, found);
            must(found[kind] == 0, "a value is found that is not there");
            for (size_t byte = 0; byte < it->len; byte++) room[64 + offset(layouts[i], byte)] = it->bytes[byte];
            search_by(layouts[i], room, sizeof room, found);
            must(found[kind] == 1, "a value that was put there is not found");
        }
    }
}

/* The stack of the calls, and from where on it is no longer painted. */
static _Alignas(4096) uint8_t stack[STACK];
static size_t low;

static void run_painted(const char *name, void (*call)(void), const word *args) {
    memset(stack, PAINT, STACK);
    memset(saved, 0, sizeof saved);
    must(on_stack(call, args, stack + STACK, vector_width()) == SLH_DONE, name);
    for (low = 0; low < STACK && stack[low] == PAINT;) low++;
}

/* Tells what the last call left below its caller and in registers. */
static void report(const struct work *w, const char *name, uint32_t detail) {
    long on[KINDS] = {0}, in[KINDS] = {0}, all = 0;
    size_t aligned = low / 16 * 16;
    search(stack + aligned, STACK - aligned, on);
    search(saved, VECTORS, in);
    search(saved + VECTORS, REGISTERS - VECTORS, in);
    printf("set %u, %s %u: %zu bytes deep", (unsigned)w->set, name, (unsigned)detail, STACK - ON_STACK - low);
    for (int kind = 0; kind < KINDS; kind++) {
        if (on[kind] > 0) printf(", %s %ld", kinds[kind], on[kind]);
        if (in[kind] > 0) printf(", %s in registers %ld", kinds[kind], in[kind]);
        all += on[kind] + in[kind];
    }
    puts(all == 0 ? ": yes" : ": LEFT: no");
    all == 0 ? passed++ : failed++;
}

static void look(const struct work *w, const char *name, uint32_t detail, void (*call)(void), const word *args) {
    run_painted(name, call, args);
    report(w, name, detail);
}

#define OF(bytes, len) (word)(bytes), (word)(len)
#define CALL(name, detail, ...) \
    look(w, #name, detail, (void (*)(void))name, (const word[ARGS]){w->set, __VA_ARGS__})
#define KEY OF(w->sk, w->sk_len)
#define SEEDS OF(w->seeds, w->n), OF(w->seeds + w->n, w->n), OF(w->seeds + 2 * w->n, w->n)

/* The set is not an argument, but in the file. */
static void look_at_reading(struct work *w) {
    static uint8_t file[SLH_MAX_KEY_FILE];
    static uint32_t set_read, kind_read;
    memcpy(file, out, sizeof file);
    look(w, "slh_key_read", 0, (void (*)(void))slh_key_read,
         (const word[ARGS]){OF(file, 36 + 2 * w->sk_len), (word)&set_read, (word)&kind_read, OF(out, w->sk_len)});
    must(set_read == w->set && memcmp(out, w->sk, w->sk_len) == 0, "another key is read");
}

/* The same of a key in DER and PEM, whose lengths a call writes. */
static void look_at_pkix(struct work *w) {
    static uint8_t file[SLH_MAX_PEM];
    static uint32_t set_read, kind_read, len;
    CALL(slh_der_write, 0, SLH_SECRET_KEY, KEY, (word)&len, OF(out, SLH_MAX_DER));
    memcpy(file, out, len);
    look(w, "slh_der_read", 0, (void (*)(void))slh_der_read,
         (const word[ARGS]){OF(file, len), (word)&set_read, (word)&kind_read, OF(out, w->sk_len)});
    must(set_read == w->set && memcmp(out, w->sk, w->sk_len) == 0, "another key is read");
    CALL(slh_pem_write, 0, SLH_SECRET_KEY, KEY, (word)&len, OF(out, SLH_MAX_PEM));
    memcpy(file, out, len);
    look(w, "slh_pem_read", 0, (void (*)(void))slh_pem_read,
         (const word[ARGS]){OF(file, len), (word)&set_read, (word)&kind_read, OF(out, w->sk_len)});
    must(set_read == w->set && memcmp(out, w->sk, w->sk_len) == 0, "another key is read");
}

static void look_at_keys(struct work *w) {
    uint32_t ranges = 2;
    CALL(slh_keygen, 0, SEEDS, OF(out, w->sk_len));
    CALL(slh_public, 0, KEY, OF(out, w->pk_len));
    CALL(slh_check, 0, KEY);
    CALL(slh_key_write, 0, SLH_SECRET_KEY, KEY, OF(out, SLH_MAX_KEY_FILE));
    look_at_reading(w);
    look_at_pkix(w);
    for (uint32_t job = 0; job < ranges; job++)
        CALL(slh_keygen_job, job, 1, SEEDS, job, OF(w->key_answers + 2 * w->n * job, 2 * w->n));
    CALL(slh_keygen_join, 0, 1, SEEDS, OF(w->key_answers, 2 * w->n * ranges), OF(out, w->sk_len));
}

/* The jobs of a signature: looks at the first two of the first and the last XMSS tree and of the first FORS tree. */
static void look_at_jobs(struct work *w) {
    for (uint32_t job = 0; job < w->jobs; job++) {
        size_t at = 0, len = 0;
        int is_looked_at = job < 2 || (job >= w->xmss_jobs - 2 && job < w->xmss_jobs + 2);
        must(slh_answer_place(w->set, 1, 1, job, &at, &len) == SLH_DONE && len <= MOST_JOB, "no place");
        if (is_looked_at) CALL(slh_sign_job, job, 1, 1, KEY, OF(w->start, w->start_len), job, OF(job_out, len));
        must(slh_sign_job(w->set, 1, 1, w->sk, w->sk_len, w->start, w->start_len, job, w->answers + at, len) ==
             SLH_DONE, "job");
    }
    CALL(slh_sign_join, 0, 1, 1, KEY, OF(w->start, w->start_len), OF(w->answers, w->answers_len), OF(out, w->sig_len));
    must(memcmp(out, w->sig, w->sig_len) == 0, "the jobs make another signature");
}

/*
 * The calls of the pure form, with the internal one over the same M', and without a randomizer. Before all of them
 * comes the key. For the first set it is the process's first call of this library: a loader may then save registers.
 */
static void look_at_pure(struct work *w) {
    const word args[ARGS] = {w->set, SEEDS, OF(w->sk, w->sk_len)};
    run_painted("keygen", (void (*)(void))slh_keygen, args);
    must(slh_sign(w->set, w->sk, w->sk_len, msg, sizeof msg, NULL, 0, NULL, 0, w->sig, w->sig_len) == SLH_DONE &&
         slh_sign_start(w->set, w->sk, w->sk_len, msg, sizeof msg, NULL, 0, NULL, 0, w->start, w->start_len) ==
             SLH_DONE, "sign");
    learn(w);
    report(w, "slh_keygen, the first call", 0);
    try_search();
    look_at_keys(w);
    CALL(slh_sign, 0, KEY, OF(msg, sizeof msg), 0, 0, 0, 0, OF(out, w->sig_len));
    CALL(slh_sign_twice, 0, KEY, OF(msg, sizeof msg), 0, 0, 0, 0, OF(scratch, 2 * w->sig_len), OF(out, w->sig_len));
    must(memcmp(out, w->sig, w->sig_len) == 0, "slh_sign_twice signs otherwise");
    CALL(slh_sign_internal, 0, KEY, OF(formatted, sizeof formatted), 0, 0, OF(out, w->sig_len));
    must(memcmp(out, w->sig, w->sig_len) == 0, "slh_sign_internal signs another message");
    CALL(slh_sign_start, 0, KEY, OF(msg, sizeof msg), 0, 0, 0, 0, OF(out, w->start_len));
    look_at_jobs(w);
}

/* Those of the pre-hash form, with a randomizer. */
static void look_at_pre_hash(struct work *w) {
    uint8_t random[SLH_MAX_N];
    uint64_t state[8];
    memset(random, 0xc3, sizeof random);
    sha2_first(state, 32);
    sha2_end(state, 32, msg, sizeof msg, sizeof msg, digest);
    must(slh_hash_sign(w->set, SLH_SHA2_256, w->sk, w->sk_len, msg, sizeof msg, NULL, 0, random, w->n, w->sig,
                       w->sig_len) == SLH_DONE &&
         slh_hash_sign_start(w->set, SLH_SHA2_256, w->sk, w->sk_len, msg, sizeof msg, NULL, 0, random, w->n, w->start,
                             w->start_len) == SLH_DONE, "hash_sign");
    learn(w);
    CALL(slh_hash_sign, 0, SLH_SHA2_256, KEY, OF(msg, sizeof msg), 0, 0, OF(random, w->n), OF(out, w->sig_len));
    CALL(slh_hash_sign_digest, 0, SLH_SHA2_256, KEY, OF(digest, 32), 0, 0, OF(random, w->n), OF(out, w->sig_len));
    must(memcmp(out, w->sig, w->sig_len) == 0, "slh_hash_sign_digest signs another message");
    CALL(slh_hash_sign_twice, 0, SLH_SHA2_256, KEY, OF(msg, sizeof msg), 0, 0, OF(random, w->n),
         OF(scratch, 2 * w->sig_len), OF(out, w->sig_len));
    CALL(slh_hash_sign_digest_twice, 0, SLH_SHA2_256, KEY, OF(digest, 32), 0, 0, OF(random, w->n),
         OF(scratch, 2 * w->sig_len), OF(out, w->sig_len));
    must(memcmp(out, w->sig, w->sig_len) == 0, "slh_hash_sign_digest_twice signs otherwise");
    CALL(slh_hash_sign_start, 0, SLH_SHA2_256, KEY, OF(msg, sizeof msg), 0, 0, OF(random, w->n), OF(out, w->start_len));
}

static void look_at_set(uint32_t set) {
    static struct work made;
    struct work *w = &made;
    *w = (struct work){.set = set, .xmss_jobs = sets[set].d << 1};
    for (size_t i = 0; i < sizeof w->seeds; i++) w->seeds[i] = (uint8_t)(0x9d * i + 0x35);
    must(slh_lengths(set, &w->pk_len, &w->sk_len, &w->sig_len, &w->n) == SLH_DONE, "no such set");
    must(slh_sign_jobs(set, 1, 1, &w->jobs, &w->start_len, &w->answers_len) == SLH_DONE, "jobs");
    w->bits = w->n == 16 ? 32 : 64;
    w->answers = malloc(w->answers_len);
    w->key_answers = malloc(4 * w->n);
    must(w->answers != NULL && w->key_answers != NULL, "no memory");
    hash_seed(w);
    look_at_pure(w);
    look_at_pre_hash(w);
    free(w->answers), free(w->key_answers);
}

int main(int argc, char **argv) {
    setvbuf(stdout, NULL, _IOLBF, 0);
    make_layouts();
    for (int i = 1; i < argc; i++) look_at_set((uint32_t)atoi(argv[i]));
    for (uint32_t set = 1; argc == 1 && set <= 6; set++) look_at_set(set);
    printf("%d passed, %d failed\n", passed, failed);
    return failed > 0;
}
