/* Calls of the system by an instruction of the program's own, past the C library and what is preloaded before it. */
#ifndef CHECKS_HOST_INSTRUCTION_H
#define CHECKS_HOST_INSTRUCTION_H

#include <errno.h>
#include <stdarg.h>
#include <stddef.h>

/* As syscall(2). */
static inline long by_instruction(long number, ...) {
    enum { WORDS = 6, ERRORS = 4095 };
    long words[WORDS], status;
    va_list more;
    va_start(more, number);
    for (size_t i = 0; i < WORDS; i++) words[i] = va_arg(more, long);
    va_end(more);
    register long fourth __asm__("r10") = words[3], fifth __asm__("r8") = words[4], sixth __asm__("r9") = words[5];
    __asm__ volatile("syscall"
                     : "=a"(status)
                     : "a"(number), "D"(words[0]), "S"(words[1]), "d"(words[2]), "r"(fourth), "r"(fifth), "r"(sixth)
                     : "rcx", "r11", "memory");
    if (status >= 0 || status < -ERRORS) return status;
    errno = (int)-status;
    return -1;
}

#endif
