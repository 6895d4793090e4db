/*
 * For a library of one level: exports.c calls the proved export by the name slh_NAME_proved. Where pointers have 64
 * bits, an export that takes no secrets has the name of its call, and exports.c does not wrap it.
 */
#ifndef SLH_ONE_LEVEL_H
#define SLH_ONE_LEVEL_H

#if __SIZEOF_POINTER__ == 8
#define PROVED(name, parameters) HIDDEN uint32_t slh_##name##_proved parameters;
#define OPEN(name, parameters, arguments)
#else
#include "narrow.c"
#endif
#define CALL(level, name, arguments) ((void)(level), slh_##name##_proved arguments)

#define DEPTHS(name, ...) static const uint32_t name##_depths[] = {__VA_ARGS__};
#include SLH_DEPTHS
#undef DEPTHS
#define DEPTH(level, name, row) name##_depths[row]

static inline uint32_t level_of(uint32_t chosen) {
    (void)chosen;
    return 0;
}

#endif
