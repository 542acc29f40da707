#define _GNU_SOURCE
#include "faults.h"
#include "../newer.h"
#include <errno.h>
#include <stdarg.h>
#include <sys/mman.h>
#include <sys/syscall.h>

struct planned planned;

int __real_ioctl(int fd, unsigned long request, ...);
int __wrap_ioctl(int fd, unsigned long request, ...);
int __real_madvise(void *at, size_t bytes, int advice);
int __wrap_madvise(void *at, size_t bytes, int advice);
void *__real_mremap(void *at, size_t old_bytes, size_t bytes, int flags, ...);
void *__wrap_mremap(void *at, size_t old_bytes, size_t bytes, int flags, ...);
int __real_fallocate(int fd, int mode, off_t from, off_t bytes);
int __wrap_fallocate(int fd, int mode, off_t from, off_t bytes);
long __real_syscall(long number, ...);
long __wrap_syscall(long number, ...);

static bool fails(int *count) {
    if (*count == 0) return false;
    (*count)--;
    return true;
}

static int refuse(int cause) {
    errno = cause;
    return -1;
}

static void watched(const struct uffdio_range *range) {
    bool is_in = range->start >= planned.window && range->start < planned.window_end;
    if (planned.watches != NULL && is_in) planned.watches((uintptr_t)range->start, (size_t)range->len);
}

static bool is_in_window(uint64_t to) { return to >= planned.window && to < planned.window_end; }

static bool is_put(uint64_t to) { return is_in_window(to) && planned.puts > 0; }

int __wrap_ioctl(int fd, unsigned long request, ...) {
    va_list rest;
    va_start(rest, request);
    void *with = va_arg(rest, void *);
    va_end(rest);
    if (request == UFFDIO_WRITEPROTECT && fails(&planned.protects)) {
        struct uffdio_writeprotect half = *(struct uffdio_writeprotect *)with;
        half.range.len = half.range.len / 8192 * 4096;
        __real_ioctl(fd, request, &half);
        return refuse(ENOMEM);
    }
    if (request == UFFDIO_REGISTER) watched(&((struct uffdio_register *)with)->range);
    if (request == UFFDIO_UNREGISTER && fails(&planned.releases)) return refuse(EINVAL);
    if (request == MOVE_PAGES && is_put(((struct move *)with)->to)) return refuse(ENOMEM);
    if (request == UFFDIO_COPY && is_put(((struct uffdio_copy *)with)->dst)) return refuse(ENOMEM);
    return __real_ioctl(fd, request, with);
}

int __wrap_madvise(void *at, size_t bytes, int advice) {
    bool is_in = (uintptr_t)at >= planned.window && (uintptr_t)at < planned.window_end;
    if (planned.advices > 0 && --planned.advices == 0) {
        __real_madvise(at, bytes / 8192 * 4096, advice);
        return refuse(ENOMEM);
    }
    if (advice == MADV_POPULATE_WRITE && fails(&planned.populates)) return refuse(EINVAL);
    if (advice == MADV_POPULATE_READ && fails(&planned.reads)) return refuse(ENOMEM);
    if (advice == MADV_HUGEPAGE && fails(&planned.huge)) return refuse(ENOMEM);
    if (advice == MADV_DONTDUMP && is_in && fails(&planned.dumps)) return refuse(ENOMEM);
    if (advice == MADV_UNMERGEABLE && is_in && fails(&planned.unmergeables)) return refuse(ENOMEM);
    if (advice == MADV_NOHUGEPAGE && is_in && fails(&planned.small)) return refuse(ENOMEM);
    return __real_madvise(at, bytes, advice);
}

void *__wrap_mremap(void *at, size_t old_bytes, size_t bytes, int flags, ...) {
    va_list rest;
    va_start(rest, flags);
    void *to = va_arg(rest, void *);
    va_end(rest);
    if (is_in_window((uintptr_t)to) && fails(&planned.copies)) {
        errno = ENOMEM;
        return MAP_FAILED;
    }
    if (is_put((uintptr_t)to)) {
        planned.puts--;
        errno = ENOMEM;
        return MAP_FAILED;
    }
    void *mapped = __real_mremap(at, old_bytes, bytes, flags, to);
    if (mapped != MAP_FAILED && planned.maps != NULL && is_in_window((uintptr_t)to)) planned.maps((uintptr_t)to, bytes);
    return mapped;
}

int __wrap_fallocate(int fd, int mode, off_t from, off_t bytes) {
    if (fails(&planned.punches)) return refuse(EINTR);
    return __real_fallocate(fd, mode, from, bytes);
}

long __wrap_syscall(long number, ...) {
    long words[6];
    va_list rest;
    va_start(rest, number);
    for (int i = 0; i < 6; i++) words[i] = va_arg(rest, long);
    va_end(rest);
    if (number == SYS_get_mempolicy && fails(&planned.policies)) return refuse(planned.policies_cause);
    return __real_syscall(number, words[0], words[1], words[2], words[3], words[4], words[5]);
}
