#define _GNU_SOURCE
#include "either.h"
#include "shadow.h"
#include <sys/mman.h>
#include <sys/syscall.h>
#include <unistd.h>

static bool by_number(void) {
    static _Thread_local uint64_t seed;
    return draw(&seed, 2) == 0;
}

int either_madvise(void *at, size_t bytes, int advice) {
    return by_number() ? (int)syscall(SYS_madvise, at, bytes, advice) : madvise(at, bytes, advice);
}

/* Memory of its own. */
void *either_mmap(void *at, size_t bytes, int protection, int flags) {
    return by_number() ? (void *)syscall(SYS_mmap, at, bytes, protection, flags, -1, 0L)
                       : mmap(at, bytes, protection, flags, -1, 0);
}

int either_munmap(void *at, size_t bytes) { return by_number() ? (int)syscall(SYS_munmap, at, bytes) : munmap(at, bytes); }

void *either_mremap(void *at, size_t bytes, size_t new_bytes, int flags, void *to) {
    return by_number() ? (void *)syscall(SYS_mremap, at, bytes, new_bytes, flags, to) : mremap(at, bytes, new_bytes, flags, to);
}

int either_mprotect(void *at, size_t bytes, int protection) {
    return by_number() ? (int)syscall(SYS_mprotect, at, bytes, protection) : mprotect(at, bytes, protection);
}

int either_mlock2(const void *at, size_t bytes, unsigned flags) {
    return by_number() ? (int)syscall(SYS_mlock2, at, bytes, flags) : mlock2(at, bytes, flags);
}

ssize_t either_pread(int file, void *at, size_t bytes, off_t from) {
    return by_number() ? syscall(SYS_pread64, file, at, bytes, from) : pread(file, at, bytes, from);
}

ssize_t either_pwrite(int file, const void *at, size_t bytes, off_t to) {
    return by_number() ? syscall(SYS_pwrite64, file, at, bytes, to) : pwrite(file, at, bytes, to);
}

ssize_t either_preadv(int file, const struct iovec *parts, int count, off_t from) {
    return by_number() ? syscall(SYS_preadv, file, parts, count, from, 0L) : preadv(file, parts, count, from);
}

ssize_t either_preadv2(int file, const struct iovec *parts, int count, off_t from, int flags) {
    return by_number() ? syscall(SYS_preadv2, file, parts, count, from, 0L, flags) : preadv2(file, parts, count, from, flags);
}
