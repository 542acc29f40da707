/* Calls of the system by their names, or by their numbers (syscall): each as it comes, one as often as the other. */
#ifndef BREAKER_EITHER_H
#define BREAKER_EITHER_H

#include <sys/types.h>
#include <sys/uio.h>

int either_madvise(void *at, size_t bytes, int advice);
void *either_mmap(void *at, size_t bytes, int protection, int flags);
int either_munmap(void *at, size_t bytes);
/* (`to` counts only with flags that say so) */
void *either_mremap(void *at, size_t bytes, size_t new_bytes, int flags, void *to);
int either_mprotect(void *at, size_t bytes, int protection);
int either_mlock2(const void *at, size_t bytes, unsigned flags);

ssize_t either_pread(int file, void *at, size_t bytes, off_t from);
ssize_t either_pwrite(int file, const void *at, size_t bytes, off_t to);
ssize_t either_preadv(int file, const struct iovec *parts, int count, off_t from);
ssize_t either_preadv2(int file, const struct iovec *parts, int count, off_t from, int flags);

#endif
