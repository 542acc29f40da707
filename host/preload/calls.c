#define _GNU_SOURCE
#include "calls.h"
#include "buffers.h"
#include "filter.h"
#include "kvm_offer.h"
#include "lines.h"
#include "sharing.h"
#include "trouble.h"
#include <fcntl.h>
#include <linux/io_uring.h>
#include <linux/userfaultfd.h>
#include <sys/ioctl.h>
#include <sys/mman.h>

/* ---- devices, and a userfaultfd of the monitor's own ---- */

/* Devices may do more from now on. */
static bool find_devices(void) { return !buffers_may_meet() || sharing_devices(devices_open()); }

bool calls_prepare_context(void) {
    devices_submit();
    return find_devices();
}

bool calls_prepare_ring(void) {
    devices_make_ring();
    return find_devices();
}

/* (as headers have them from Linux 6.12 on) */
static const uint32_t registering[] = {
    IORING_REGISTER_BUFFERS, 2 /* FILES */,     6 /* FILES_UPDATE */,    13 /* FILES2 */,
    14 /* .._UPDATE2 */,     15 /* BUFFERS2 */, 16 /* BUFFERS_UPDATE */, 30 /* CLONE_BUFFERS */};
_Static_assert(sizeof registering == CALLS_REGISTERING_MOST * sizeof *registering, "all have room");

size_t calls_registering(uint32_t what[CALLS_REGISTERING_MOST]) {
    memcpy(what, registering, sizeof registering);
    return CALLS_REGISTERING_MOST;
}

bool calls_prepare_registering(uint32_t what) {
    bool is_it = false;
    for (size_t i = 0; i < CALLS_REGISTERING_MOST; i++) is_it = is_it || registering[i] == (what & ~CALLS_BY_RING);
    return !is_it || sharing_devices(DEVICES_PIN_PAGES);
}

static void *begin_of(const struct uffdio_range *range) { return (void *)(uintptr_t)range->start; }

/* A userfaultfd is to watch memory, perhaps of a window. (Where there is no such struct the system refuses the request.) */
static bool prepare_watch(const void *with, bool *is_begun) {
    struct uffdio_register asked;
    bool is_it =
        buffers_may_meet() && buffers_read(&asked, with, sizeof asked) && sharing_meets(begin_of(&asked.range), asked.range.len);
    return !is_it || sharing_watch((asked.mode & ~UFFDIO_REGISTER_MODE_WP) != 0, is_begun);
}

/* One is to guard memory against writes, or no longer. */
static bool prepare_guard(const void *with) {
    struct uffdio_writeprotect asked;
    bool is_it = buffers_may_meet() && buffers_read(&asked, with, sizeof asked) &&
                 (asked.mode & UFFDIO_WRITEPROTECT_MODE_WP) != 0 && sharing_meets(begin_of(&asked.range), asked.range.len);
    return !is_it || sharing_protect(begin_of(&asked.range), asked.range.len);
}

bool calls_prepare_request(unsigned long request, const void *with, bool *is_followed) {
    *is_followed = kvm_offer_is_about(request);
    if (request == UFFDIO_REGISTER) return prepare_watch(with, is_followed);
    if (request == UFFDIO_WRITEPROTECT) return prepare_guard(with);
    enum devices devices = devices_of_request(request, with);
    return devices == DEVICES_NONE || sharing_devices(devices);
}

void calls_request_made(int descriptor, unsigned long request, const void *with, long status) {
    int cause = errno;
    if (request == UFFDIO_REGISTER) sharing_watch_made();
    else if (status == 0) kvm_offer_seen(descriptor, request, with);
    errno = cause;
}

size_t calls_requests(uint32_t requests[CALLS_REQUESTS_MOST]) {
    size_t count = devices_requests(requests, CALLS_REQUESTS_MOST - 2);
    requests[count++] = UFFDIO_REGISTER;
    requests[count++] = UFFDIO_WRITEPROTECT;
    return count + kvm_offer_requests(requests + count, CALLS_REQUESTS_MOST - count);
}

/* ---- advice by the descriptor of a process ---- */

/* The process of a descriptor as the system numbers it, or 0: it isn't one of a process, or the system doesn't say. */
static long process_of(int descriptor) {
    struct lines lines;
    char path[64];
    long process = 0;
    snprintf(path, sizeof path, "/proc/self/fdinfo/%d", descriptor);
    int info = (int)syscall(SYS_openat, AT_FDCWD, path, O_RDONLY | O_CLOEXEC, 0);
    if (info < 0) return 0;
    lines_of(&lines, info);
    for (const char *line; process == 0 && (line = lines_next(&lines));)
        if (sscanf(line, "Pid: %ld", &process) != 1) process = 0;
    syscall(SYS_close, info);
    return process > 0 ? process : 0;
}

/* Whether a descriptor is of this process, or of a thread of it. A negative number that the system takes stands for these. */
static bool is_self(int descriptor) {
    char path[64];
    if (descriptor < 0) return filter_pass(SYS_process_madvise, descriptor, 0, 0, MADV_COLD, 0) == 0;
    long process = process_of(descriptor);
    snprintf(path, sizeof path, "/proc/self/task/%ld", process);
    return process == getpid() || (process != 0 && syscall(SYS_faccessat, AT_FDCWD, path, F_OK) == 0);
}

/* Whether advice is on a window's memory. Then `copies` are the buffers. errno stays as it is. */
static bool is_on_window(int process, const struct iovec *buffers, size_t count, struct iovec copies[BUFFERS_MOST]) {
    int cause = errno;
    bool is_it = count <= BUFFERS_MOST && buffers_may_meet() && buffers_copy(copies, buffers, count) &&
                 buffers_meet(copies, count) && is_self(process);
    errno = cause;
    return is_it;
}

/*
 * Linux takes advice of this process on itself as madvise does from 6.13 on. Older ones refuse most of it with EINVAL, or all of it with
 * EPERM. Here it is followed then, too, which is harmless: the monitor asked for it.
 */
bool calls_advise(int process, const struct iovec *buffers, size_t count, int advice, unsigned flags, ssize_t *status) {
    struct iovec copies[BUFFERS_MOST];
    size_t done = 0;
    if (flags != 0 || !is_on_window(process, buffers, count, copies)) return false;
    for (size_t i = 0; i < count; done += copies[i++].iov_len) {
        if (copies[i].iov_len == 0 || madvise(copies[i].iov_base, copies[i].iov_len, advice) == 0) continue;
        *status = done > 0 ? (ssize_t)done : -1;
        return true;
    }
    *status = (ssize_t)done;
    return true;
}
