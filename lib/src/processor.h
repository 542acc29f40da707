/* The processor's level: what the launcher and the library choose by. */
#ifndef PAGESHARE_PROCESSOR_H
#define PAGESHARE_PROCESSOR_H

/*
 * The level of x86-64 that this processor and its system support: 3 (which has AVX2; or more), 2, or 1. Compilers that don't know the
 * levels by name are asked for some of what a level has alone: its vectors, and some of its other instructions.
 */
static inline unsigned processor_level(void) {
    __builtin_cpu_init();
#if defined(__GNUC__) && !defined(__clang__) && __GNUC__ >= 12
    if (__builtin_cpu_supports("x86-64-v3")) return 3;
    if (__builtin_cpu_supports("x86-64-v2")) return 2;
#else
    if (__builtin_cpu_supports("avx2") && __builtin_cpu_supports("fma") && __builtin_cpu_supports("bmi") &&
        __builtin_cpu_supports("bmi2"))
        return 3;
    if (__builtin_cpu_supports("sse4.2") && __builtin_cpu_supports("popcnt")) return 2;
#endif
    return 1;
}

#endif
