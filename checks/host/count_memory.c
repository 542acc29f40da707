/*
 * A library that is preloaded before libpageshare-window.so, and lets that one find a system that promises no more memory than it has
 * (vm.overcommit_memory is 2). While `memory_is_promised` is set nothing that can be written is mapped in the place of something else. As
 * Linux does, mremap has unmapped that place by the time it finds out that there is no memory for a copy.
 */
#define _GNU_SOURCE
#include <dlfcn.h>
#include <errno.h>
#include <fcntl.h>
#include <stdarg.h>
#include <stdatomic.h>
#include <stdint.h>
#include <stdlib.h>
#include <string.h>
#include <sys/mman.h>
#include <sys/syscall.h>
#include <unistd.h>

#ifndef MREMAP_DONTUNMAP
#define MREMAP_DONTUNMAP 4
#endif

#define PUBLIC __attribute__((visibility("default")))

PUBLIC atomic_int memory_is_promised;

typedef void *map_function(void *, size_t, int, int, int, off_t);
typedef void *remap_function(void *, size_t, size_t, int, ...);
typedef int open_function(const char *, int, ...);

static void *next_of(const char *name) {
    void *next = dlsym(RTLD_NEXT, name);
    if (next == NULL) abort();
    return next;
}

PUBLIC void *mmap(void *at, size_t bytes, int protection, int flags, int file, off_t offset) {
    const int replaces = MAP_PRIVATE | MAP_FIXED;
    if (atomic_load(&memory_is_promised) == 0 || (protection & PROT_WRITE) == 0 || (flags & replaces) != replaces)
        return ((map_function *)(uintptr_t)next_of("mmap"))(at, bytes, protection, flags, file, offset);
    errno = ENOMEM;
    return MAP_FAILED;
}

PUBLIC void *mremap(void *at, size_t bytes, size_t new_bytes, int flags, ...) {
    const int copies = MREMAP_FIXED | MREMAP_DONTUNMAP;
    va_list rest;
    va_start(rest, flags);
    void *to = va_arg(rest, void *);
    va_end(rest);
    if (atomic_load(&memory_is_promised) == 0 || (flags & copies) != copies)
        return ((remap_function *)(uintptr_t)next_of("mremap"))(at, bytes, new_bytes, flags, to);
    syscall(SYS_munmap, to, new_bytes);
    errno = ENOMEM;
    return MAP_FAILED;
}

static int file_of(const char *text) {
    int file = memfd_create("setting", MFD_CLOEXEC);
    if (file < 0 || pwrite(file, text, strlen(text), 0) != (ssize_t)strlen(text)) abort();
    return file;
}

PUBLIC int open(const char *path, int flags, ...) {
    va_list rest;
    va_start(rest, flags);
    mode_t mode = va_arg(rest, mode_t);
    va_end(rest);
    if (strcmp(path, "/proc/sys/vm/overcommit_memory") == 0) return file_of("2\n");
    return ((open_function *)(uintptr_t)next_of("open"))(path, flags, mode);
}
