/*
 * The other half of refuse_in_monitor.c, which is preloaded behind libpageshare-window.so: what that library calls by `syscall` comes here, and
 * that one says which of it is refused.
 */
#define _GNU_SOURCE
#include "instruction.h"
#include <stdbool.h>

extern bool refuse_in_monitor(long number, const long words[6], const void *caller);

__attribute__((visibility("default"))) long syscall(long number, ...) {
    long words[6];
    va_list rest;
    va_start(rest, number);
    for (size_t i = 0; i < 6; i++) words[i] = va_arg(rest, long);
    va_end(rest);
    if (refuse_in_monitor(number, words, __builtin_return_address(0))) return -1;
    return by_instruction(number, words[0], words[1], words[2], words[3], words[4], words[5]);
}
