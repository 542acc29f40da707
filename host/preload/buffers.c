#define _GNU_SOURCE
#include "buffers.h"
#include "devices.h"
#include "ranges.h"
#include "sharing.h"
#include "trouble.h"
#include <fcntl.h>

bool buffers_may_meet(void) { return !sharing_is_inside() && ranges_near(NULL, (const uint8_t *)UINTPTR_MAX); }

/* The system copies it, as it does at the call itself: memory that isn't there must not end the process. */
bool buffers_read(void *to, const void *from, size_t bytes) {
    const struct iovec there = {(void *)(uintptr_t)from, bytes}, here = {to, bytes};
    int before = errno;
    long got = syscall(SYS_process_vm_readv, getpid(), &here, 1L, &there, 1L, 0L);
    bool can_ask = got >= 0 || errno == EFAULT;
    errno = before;
    if (!can_ask) memcpy(to, from, bytes); /* (it may be forbidden, or left out of the kernel) */
    return !can_ask || got == (long)bytes;
}

bool buffers_copy(struct iovec to[BUFFERS_MOST], const struct iovec *from, size_t count) {
    return buffers_read(to, from, count * sizeof *to);
}

bool buffers_meet(const struct iovec *buffers, size_t count) {
    bool meet = false;
    for (size_t i = 0; i < count && !meet; i++) meet = sharing_meets(buffers[i].iov_base, buffers[i].iov_len);
    return meet;
}

bool buffers_are_pinned_by(int file) {
    int before = errno, flags = (int)syscall(SYS_fcntl, file, F_GETFL);
    bool are = flags >= 0 && ((flags & O_DIRECT) != 0 || devices_pin_plainly(file));
    errno = before;
    return are;
}
