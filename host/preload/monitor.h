/*
 * What this library does for calls that a virtual machine monitor makes, by names of its own: by the public ones (preload.c) the program's own
 * functions might be called, or another library's. They return what the calls do, with errno.
 */
#ifndef HOST_MONITOR_H
#define HOST_MONITOR_H

#include <stddef.h>
#include <sys/types.h>
#include <sys/uio.h>

int monitor_madvise(void *at, size_t bytes, int advice);
ssize_t monitor_process_madvise(int process, const struct iovec *buffers, size_t count, int advice, unsigned flags);

void *monitor_mmap(void *at, size_t bytes, int protection, int flags, int file, off_t offset);
int monitor_munmap(void *at, size_t bytes);
/* (`to` counts only with flags that say so) */
void *monitor_mremap(void *at, size_t bytes, size_t new_bytes, int flags, void *to);
int monitor_mprotect(void *at, size_t bytes, int protection);
int monitor_pkey_mprotect(void *at, size_t bytes, int protection, int key);
int monitor_mlock(const void *at, size_t bytes);
int monitor_mlock2(const void *at, size_t bytes, unsigned flags);
int monitor_mlockall(int flags);

long monitor_ioctl(int descriptor, unsigned long request, void *with);

/* openat; fcntl without what the C library does besides; dup3. */
int monitor_open(int folder, const char *path, int flags, mode_t mode);
int monitor_fcntl(int descriptor, int command, void *with);
int monitor_close(int descriptor);
int monitor_close_range(unsigned first, unsigned last, int flags);
int monitor_dup3(int descriptor, int place, int flags);
int monitor_dup2(int descriptor, int place);

/* read, write and the like, by the system's number and words: the system makes the call, so no thread is cancelled in it (transfers.c). */
long monitor_transfer(int number, const long of[6]);

#endif
