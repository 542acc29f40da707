#define _GNU_SOURCE
/*
 * The C library's function `syscall`, interposed in a virtual machine monitor: a call by its number does what the one by its name does here,
 * and for those that have no name of the C library, what the filter's listener does. Every other call goes on to the C library's own function.
 * So do all calls of this library, which is linked so that they begin at __wrap_syscall (-Wl,--wrap=syscall).
 *
 * What goes on leaves nothing on the stack: a child of vfork or clone returns by the stack that its parent has, too.
 */
#include "calls.h"
#include "filter.h"
#include "monitor.h"
#include "trouble.h"
#include <dlfcn.h>
#include <fcntl.h>

/* What the assembler has of C, and C of the assembler. */
#define OF_ASSEMBLER __attribute__((used, visibility("hidden")))

/* ---- which calls don't go on ---- */

enum kind { GOES_ON, MEMORY, FILES, TRANSFER, DEVICES };

enum { NUMBERS = 512 }; /* (the assembler says it again) */
OF_ASSEMBLER const uint8_t raw_calls_kinds[NUMBERS] = {
    [SYS_madvise] = MEMORY,
    [SYS_mmap] = MEMORY,
    [SYS_munmap] = MEMORY,
    [SYS_mremap] = MEMORY,
    [SYS_mprotect] = MEMORY,
    [SYS_mlock] = MEMORY,
    [SYS_mlock2] = MEMORY,
    [SYS_mlockall] = MEMORY,
    [SYS_pkey_mprotect] = MEMORY,
    [SYS_open] = FILES,
    [SYS_openat] = FILES,
    [SYS_fcntl] = FILES,
    [SYS_close] = FILES,
    [SYS_close_range] = FILES,
    [SYS_dup2] = FILES,
    [SYS_dup3] = FILES,
    [SYS_read] = TRANSFER,
    [SYS_write] = TRANSFER,
    [SYS_pread64] = TRANSFER,
    [SYS_pwrite64] = TRANSFER,
    [SYS_readv] = TRANSFER,
    [SYS_writev] = TRANSFER,
    [SYS_preadv] = TRANSFER,
    [SYS_pwritev] = TRANSFER,
    [SYS_preadv2] = TRANSFER,
    [SYS_pwritev2] = TRANSFER,
    [SYS_ioctl] = DEVICES,
    [SYS_io_setup] = DEVICES,
    [SYS_io_uring_setup] = DEVICES,
    [SYS_io_uring_register] = DEVICES,
    [SYS_process_madvise] = DEVICES,
};

/* ---- the functions themselves ---- */

typedef long raw_function(long number, ...);

/* Makes the call as the C library's function does, whose place it takes while that isn't known. */
raw_function raw_calls_alone __attribute__((visibility("hidden")));
/* Where calls go on to. */
OF_ASSEMBLER raw_function *raw_calls_next = raw_calls_alone;

__attribute__((constructor)) static void find_next(void) {
    raw_function *found = (raw_function *)(uintptr_t)dlsym(RTLD_NEXT, "syscall");
    if (found) raw_calls_next = found;
}

/* (a call's six words and its return address are as the C library's function has them: the sixth lies on the stack) */
__asm__(".pushsection .text, \"ax\", @progbits\n"
        ".globl syscall, __wrap_syscall, raw_calls_alone\n"
        ".hidden __wrap_syscall, raw_calls_alone\n"
        ".type syscall, @function\n"
        ".type __wrap_syscall, @function\n"
        ".type raw_calls_alone, @function\n"
        "syscall:\n"
        "    .cfi_startproc\n"
        "    movl %edi, %eax\n" /* the system takes no more of a number */
        "    cmpl $512, %eax\n"
        "    jae __wrap_syscall\n"
        "    leaq raw_calls_kinds(%rip), %r11\n"
        "    cmpb $0, (%r11, %rax)\n"
        "    jne raw_calls_make\n"
        "__wrap_syscall:\n"
        "    jmp *raw_calls_next(%rip)\n"
        "    .cfi_endproc\n"
        "raw_calls_alone:\n"
        "    .cfi_startproc\n"
        "    movq %rdi, %rax\n"
        "    movq %rsi, %rdi\n"
        "    movq %rdx, %rsi\n"
        "    movq %rcx, %rdx\n"
        "    movq %r8, %r10\n"
        "    movq %r9, %r8\n"
        "    movq 8(%rsp), %r9\n"
        "    syscall\n"
        "    cmpq $-4095, %rax\n"
        "    jae 1f\n"
        "    ret\n"
        "1:  movq %rax, %rdi\n"
        "    jmp raw_calls_failed\n"
        "    .cfi_endproc\n"
        ".size syscall, __wrap_syscall - syscall\n"
        ".size __wrap_syscall, raw_calls_alone - __wrap_syscall\n"
        ".size raw_calls_alone, . - raw_calls_alone\n"
        ".popsection\n");

OF_ASSEMBLER long raw_calls_failed(long status);
long raw_calls_failed(long status) {
    errno = (int)-status;
    return -1;
}

/* ---- calls that don't go on ---- */

static long of_memory(int number, const long words[6]) {
    void *at = (void *)words[0];
    const size_t bytes = (size_t)words[1];
    const int third = (int)words[2], fourth = (int)words[3];
    switch (number) {
    case SYS_madvise: return monitor_madvise(at, bytes, third);
    case SYS_mmap: return (long)monitor_mmap(at, bytes, third, fourth, (int)words[4], words[5]);
    case SYS_munmap: return monitor_munmap(at, bytes);
    case SYS_mremap: return (long)monitor_mremap(at, bytes, (size_t)words[2], fourth, (void *)words[4]);
    case SYS_mprotect: return monitor_mprotect(at, bytes, third);
    case SYS_pkey_mprotect: return monitor_pkey_mprotect(at, bytes, third, fourth);
    case SYS_mlock: return monitor_mlock(at, bytes);
    case SYS_mlock2: return monitor_mlock2(at, bytes, (unsigned)third);
    default: return monitor_mlockall((int)words[0]);
    }
}

static long of_files(int number, const long words[6]) {
    const int first = (int)words[0], second = (int)words[1], third = (int)words[2];
    switch (number) {
    case SYS_open: return monitor_open(AT_FDCWD, (const char *)words[0], second, (mode_t)third);
    case SYS_openat: return monitor_open(first, (const char *)words[1], third, (mode_t)words[3]);
    case SYS_fcntl: return monitor_fcntl(first, second, (void *)words[2]);
    case SYS_close: return monitor_close(first);
    case SYS_close_range: return monitor_close_range((unsigned)first, (unsigned)second, third);
    case SYS_dup2: return monitor_dup2(first, second);
    default: return monitor_dup3(first, second, third);
    }
}

static long of_devices(int number, const long words[6]) {
    bool may = true;
    if (number == SYS_ioctl) return monitor_ioctl((int)words[0], (unsigned long)words[1], (void *)words[2]);
    if (number == SYS_process_madvise)
        return monitor_process_madvise((int)words[0], (const struct iovec *)words[1], (size_t)words[2], (int)words[3],
                                       (unsigned)words[4]);
    if (number == SYS_io_setup) may = calls_prepare_context();
    if (number == SYS_io_uring_setup) may = calls_prepare_ring();
    if (number == SYS_io_uring_register) may = calls_prepare_registering((uint32_t)words[1]);
    return may ? filter_pass(number, words[0], words[1], words[2], words[3], words[4]) : -1;
}

/* (a call that is made well leaves errno as it was, as the C library's function does) */
OF_ASSEMBLER long raw_calls_make(long number, long first, long second, long third, long fourth, long fifth, long sixth);
long raw_calls_make(long number, long first, long second, long third, long fourth, long fifth, long sixth) {
    const long words[] = {first, second, third, fourth, fifth, sixth};
    const int its = (int)number, before = errno;
    long status;
    switch ((enum kind)raw_calls_kinds[its]) {
    case MEMORY: status = of_memory(its, words); break;
    case FILES: status = of_files(its, words); break;
    case TRANSFER: status = monitor_transfer(its, words); break;
    default: status = of_devices(its, words); break;
    }
    if (status != -1) errno = before;
    return status;
}
