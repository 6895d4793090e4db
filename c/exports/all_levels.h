/*
 * For a library of several levels: exports.c calls the proved export of the best level, which is named slh_NAME_v2,
 * slh_NAME_v3 or slh_NAME_v4. On x86-64 these are x86-64-v2 to -v4, and on 64-bit ARM NEON, SHA-256's instructions,
 * and SHA-512's, too. SLH_HIGHEST is the highest that there is, 3 or 4. With SLH_DEPTHS_V2_SHA there is
 * slh_NAME_v2_sha, too: x86-64-v2 with all of SHA-256 by SHA instructions. On a processor that has not even x86-64-v2
 * no proved export is called: its first instruction of that level would end the program.
 */
#ifndef SLH_ALL_LEVELS_H
#define SLH_ALL_LEVELS_H

#define PROVED(name, parameters)                    \
    HIDDEN uint32_t slh_##name##_v2 parameters;     \
    HIDDEN uint32_t slh_##name##_v2_sha parameters; \
    HIDDEN uint32_t slh_##name##_v3 parameters;     \
    HIDDEN uint32_t slh_##name##_v4 parameters;
#if SLH_HIGHEST == 4
#define IF_V4(level, it) (level) == 4 ? it :
#else
#define IF_V4(level, it)
#endif
#ifdef SLH_DEPTHS_V2_SHA
#define IF_V2_SHA(level, it) (level) == V2_SHA ? it :
#else
#define IF_V2_SHA(level, it)
#endif
#define CALL(level, name, arguments)                 \
    (IF_V4(level, slh_##name##_v4 arguments)         \
     IF_V2_SHA(level, slh_##name##_v2_sha arguments) \
     (level) == 3 ? slh_##name##_v3 arguments        \
                  : slh_##name##_v2 arguments)

/* A jump takes no stack. */
#define JUMP __attribute__((musttail)) return
#if SLH_HIGHEST == 4
#define JUMP_IF_V4(level, it) if (level == 4) JUMP it;
#else
#define JUMP_IF_V4(level, it)
#endif
#ifdef SLH_DEPTHS_V2_SHA
#define JUMP_IF_V2_SHA(level, it) if (level == V2_SHA) JUMP it;
#else
#define JUMP_IF_V2_SHA(level, it)
#endif
#define JUMP_TO_LEVEL(name, arguments, below_v2)         \
    uint32_t level = level_of(choice());                 \
    JUMP_IF_V4(level, slh_##name##_v4 arguments)         \
    JUMP_IF_V2_SHA(level, slh_##name##_v2_sha arguments) \
    if (level == 3) JUMP slh_##name##_v3 arguments;      \
    if (level == BELOW_V2) return below_v2;              \
    JUMP slh_##name##_v2 arguments;
#define OF_LEVELS(name, parameters, arguments, below_v2) \
    PROVED(name, parameters)                             \
    uint32_t slh_##name parameters { JUMP_TO_LEVEL(name, arguments, below_v2) }
#define OPEN(name, parameters, arguments) OF_LEVELS(name, parameters, arguments, SLH_OLD_PROCESSOR)
#define HARDENED(name, parameters, arguments) OF_LEVELS(name, parameters, arguments, SLH_HARDENED_INVALID)
#define VERSION(name, parameters, arguments) OF_LEVELS(name, parameters, arguments, SLH_VERSION_NUMBER)

/* A refusal is in each verdict, too. */
static uint32_t put_own_refusal(uint32_t *verdicts, size_t verdicts_len) {
    for (size_t i = 0; i < verdicts_len; i++) verdicts[i] = SLH_OLD_PROCESSOR;
    return SLH_OLD_PROCESSOR;
}
#define MANY(name, parameters, arguments) \
    OF_LEVELS(name, parameters, arguments, put_own_refusal(verdicts, verdicts_len))

/* The proved code has no name for the refusal that is ours. */
static uint32_t put_own_name(uint32_t refusal, char *name, size_t name_len) {
    static const char own[] = "OldProcessor";
    (void)refusal;
    if (name_len < sizeof own) return SLH_BAD_OUTPUT_LENGTH;
    memset(name, 0, name_len);
    memcpy(name, own, sizeof own);
    return SLH_DONE;
}
#define NAME(name, parameters, arguments)                                \
    PROVED(name, parameters)                                             \
    uint32_t slh_##name parameters {                                     \
        if (refusal == SLH_OLD_PROCESSOR) return put_own_name arguments; \
        JUMP_TO_LEVEL(name, arguments, SLH_OLD_PROCESSOR)                \
    }

#define DEPTHS(name, ...) static const uint32_t name##_depths_v2[] = {__VA_ARGS__};
#include SLH_DEPTHS_V2
#undef DEPTHS
#define DEPTHS(name, ...) static const uint32_t name##_depths_v3[] = {__VA_ARGS__};
#include SLH_DEPTHS_V3
#undef DEPTHS
#if SLH_HIGHEST == 4
#define DEPTHS(name, ...) static const uint32_t name##_depths_v4[] = {__VA_ARGS__};
#include SLH_DEPTHS_V4
#undef DEPTHS
#endif
#ifdef SLH_DEPTHS_V2_SHA
#define DEPTHS(name, ...) static const uint32_t name##_depths_v2_sha[] = {__VA_ARGS__};
#include SLH_DEPTHS_V2_SHA
#undef DEPTHS
#endif
#define DEPTH(level, name, row)                  \
    (IF_V4(level, name##_depths_v4[row])         \
     IF_V2_SHA(level, name##_depths_v2_sha[row]) \
     (level) == 3 ? name##_depths_v3[row]        \
                  : name##_depths_v2[row])

static inline uint32_t level_of(uint32_t chosen) { return chosen & LEVEL_MASK; }

#endif
