/*
 * A library that is preloaded before libpageshare-window.so, and refuses some calls of the system that that one makes: the REFUSE_FIRST-th,
 * and each REFUSE_EACH-th one after it, as if there were no memory, no time or no right for it. Calls of the program itself aren't refused.
 * refuse_syscalls.c is its other half. At the end it prints how many calls there were, and how many were refused.
 */
#define _GNU_SOURCE
#include <dlfcn.h>
#include <errno.h>
#include <fcntl.h>
#include <link.h>
#include <stdarg.h>
#include <stdatomic.h>
#include <stdbool.h>
#include <stdint.h>
#include <stdio.h>
#include <stdlib.h>
#include <string.h>
#include <sys/ioctl.h>
#include <sys/mman.h>
#include <sys/syscall.h>
#include <unistd.h>

#define PUBLIC __attribute__((visibility("default")))
#define CALLER __builtin_return_address(0)

static uintptr_t begin, end; /* of the library's code */
static unsigned long first, each = 1000000000;
static atomic_ulong calls, refused;
static _Thread_local int inside __attribute__((tls_model("initial-exec"))); /* a call that is looked at already */

static struct {
    void *(*mmap)(void *, size_t, int, int, int, off_t);
    void *(*mremap)(void *, size_t, size_t, int, ...);
    int (*madvise)(void *, size_t, int);
    int (*ioctl)(int, unsigned long, ...);
    int (*open)(const char *, int, ...);
    ssize_t (*pread)(int, void *, size_t, off_t);
    long (*syscall)(long, ...);
} next;

static int find_library(struct dl_phdr_info *info, size_t size, void *unused) {
    (void)size, (void)unused;
    if (strstr(info->dlpi_name, "libpageshare-window.so") == NULL) return 0;
    for (int i = 0; i < info->dlpi_phnum; i++) {
        const ElfW(Phdr) *part = &info->dlpi_phdr[i];
        if (part->p_type != PT_LOAD || (part->p_flags & PF_X) == 0) continue;
        begin = info->dlpi_addr + part->p_vaddr;
        end = begin + part->p_memsz;
    }
    return 1;
}

#define FIND(NAME, SYMBOL) *(void **)(void *)&next.NAME = dlsym(RTLD_NEXT, SYMBOL)

static void find_next(void) {
    FIND(mmap, "mmap");
    FIND(mremap, "mremap");
    FIND(madvise, "madvise");
    FIND(ioctl, "ioctl");
    FIND(open, "open");
    FIND(pread, "pread64");
    FIND(syscall, "syscall");
}

static unsigned long number_of(const char *name, unsigned long otherwise) {
    const char *text = getenv(name);
    return text ? strtoul(text, NULL, 10) : otherwise;
}

__attribute__((constructor)) static void start(void) {
    find_next();
    first = number_of("REFUSE_FIRST", 0);
    each = number_of("REFUSE_EACH", each);
    dl_iterate_phdr(find_library, NULL);
}

__attribute__((destructor)) static void stop(void) {
    if (begin != 0 && calls > 0) fprintf(stderr, "calls %lu refused %lu\n", atomic_load(&calls), atomic_load(&refused));
}

/* Whether this call is refused; errno says how. */
static bool refuses(const void *caller) {
    static const int causes[] = {ENOMEM, EAGAIN, EPERM};
    if (next.mmap == NULL) find_next();
    if (inside > 0 || (uintptr_t)caller < begin || (uintptr_t)caller >= end || first == 0) return false;
    unsigned long number = atomic_fetch_add(&calls, 1) + 1;
    if (number < first || (number - first) % each != 0) return false;
    errno = causes[atomic_fetch_add(&refused, 1) % 3];
    return true;
}

PUBLIC void *mmap(void *at, size_t bytes, int protection, int flags, int file, off_t offset) {
    if (refuses(CALLER)) return MAP_FAILED;
    inside++;
    void *got = next.mmap(at, bytes, protection, flags, file, offset);
    inside--;
    return got;
}

PUBLIC void *mremap(void *at, size_t bytes, size_t new_bytes, int flags, ...) {
    va_list rest;
    va_start(rest, flags);
    void *to = va_arg(rest, void *);
    va_end(rest);
    if (refuses(CALLER)) return MAP_FAILED;
    inside++;
    void *got = next.mremap(at, bytes, new_bytes, flags, to);
    inside--;
    return got;
}

/* (of memory that was mapped just now the system has no cause to refuse these) */
static bool may_refuse_advice(long advice) { return advice != MADV_DONTFORK && advice != MADV_WIPEONFORK; }

PUBLIC int madvise(void *at, size_t bytes, int advice) {
    if (may_refuse_advice(advice) && refuses(CALLER)) return -1;
    inside++;
    int status = next.madvise(at, bytes, advice);
    inside--;
    return status;
}

PUBLIC int ioctl(int descriptor, unsigned long request, ...) {
    va_list rest;
    va_start(rest, request);
    void *with = va_arg(rest, void *);
    va_end(rest);
    if (refuses(CALLER)) return -1;
    inside++;
    int status = next.ioctl(descriptor, request, with);
    inside--;
    return status;
}

PUBLIC int open(const char *path, int flags, ...) {
    va_list rest;
    va_start(rest, flags);
    mode_t mode = va_arg(rest, mode_t);
    va_end(rest);
    if (refuses(CALLER)) return -1;
    inside++;
    int descriptor = next.open(path, flags, mode);
    inside--;
    return descriptor;
}

PUBLIC ssize_t pread(int descriptor, void *buffer, size_t bytes, off_t from) {
    if (refuses(CALLER)) return -1;
    inside++;
    ssize_t got = next.pread(descriptor, buffer, bytes, from);
    inside--;
    return got;
}

/* (calls of the library's own don't come here: see refuse_syscalls.c) */
PUBLIC long syscall(long number, ...) {
    long words[6];
    va_list rest;
    va_start(rest, number);
    for (size_t i = 0; i < 6; i++) words[i] = va_arg(rest, long);
    va_end(rest);
    if (next.syscall == NULL) find_next();
    bool is_as_named = number == SYS_mmap || number == SYS_mremap || number == SYS_madvise || number == SYS_ioctl ||
                       number == SYS_openat || number == SYS_pread64;
    inside += is_as_named;
    long status = next.syscall(number, words[0], words[1], words[2], words[3], words[4], words[5]);
    inside -= is_as_named;
    return status;
}

/* Of these numbers of calls some are refused. */
static bool may_refuse(long number) {
    return number == SYS_mmap || number == SYS_mremap || number == SYS_madvise || number == SYS_ioctl || number == SYS_openat ||
           number == SYS_munmap || number == SYS_mprotect || number == SYS_seccomp || number == SYS_pidfd_open;
}

PUBLIC bool refuse_in_monitor(long number, const long words[6], const void *caller);
PUBLIC bool refuse_in_monitor(long number, const long words[6], const void *caller) {
    bool may = may_refuse(number) && (number != SYS_madvise || may_refuse_advice(words[2]));
    return may && refuses(caller);
}
