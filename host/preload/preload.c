#define _GNU_SOURCE
/*
 * libpageshare-window.so, preloaded into a virtual machine monitor: the functions of the C library that it interposes, but for those that
 * read and write files (transfers.c, aio.c) and `syscall` (raw_calls.c), and nothing else.
 * sharing.c has what they do. Where a call has nothing to do with a window it goes to the system as it is.
 *
 * Interposed are calls
 * - that would show what lies under a window: madvise, process_madvise, munmap, mmap, mremap;
 * - that a window's mappings can't follow: mprotect, mlock, a userfaultfd of the monitor's own;
 * - that let devices write to memory: open with O_DIRECT, VFIO;
 * - that close descriptors of which the monitor doesn't know.
 */
#include "buffers.h"
#include "calls.h"
#include "filter.h"
#include "monitor.h"
#include "sharing.h"
#include "trouble.h"
#include <dlfcn.h>
#include <fcntl.h>
#include <linux/userfaultfd.h>
#include <sys/ioctl.h>
#include <sys/mman.h>

#ifndef MADV_POPULATE_READ
#define MADV_POPULATE_READ 22
#define MADV_POPULATE_WRITE 23
#endif
#ifndef MADV_COLLAPSE
#define MADV_COLLAPSE 25
#endif
#ifndef MREMAP_DONTUNMAP
#define MREMAP_DONTUNMAP 4
#endif

#define PUBLIC __attribute__((visibility("default")))
#define ALIAS(NAME) __attribute__((visibility("default"), alias(NAME)))

/* The word that a call has behind its named ones. */
#define READ_WITH(LAST)                                                                                                          \
    va_list rest;                                                                                                                \
    va_start(rest, LAST);                                                                                                        \
    void *with = va_arg(rest, void *);                                                                                           \
    va_end(rest);

/* ---- the C library's own functions ---- */

typedef int fcntl_function(int, int, ...);

/* Those that are called behind the ones here, since they do more than a call of the system. NULL before this library is loaded. */
static struct { fcntl_function *fcntl, *fcntl64; } next;

__attribute__((constructor)) static void find_next(void) {
    next.fcntl = (fcntl_function *)(uintptr_t)dlsym(RTLD_NEXT, "fcntl");
    next.fcntl64 = (fcntl_function *)(uintptr_t)dlsym(RTLD_NEXT, "fcntl64");
    devices_leave_out(sharing_owns);
}

/* ---- advice ---- */

static int system_madvise(void *at, size_t bytes, int advice) { return (int)syscall(SYS_madvise, at, bytes, advice); }

/* Advice that may change what pages contain, or uncover what lies under them. */
static int advise_otherwise(void *at, size_t bytes, int advice) {
    switch (sharing_leave(at, bytes, advice == MADV_UNMERGEABLE ? "MADV_UNMERGEABLE" : "advice (madvise)")) {
    case SHARING_REFUSED: return -1;
    case SHARING_LEFT: break;
    case SHARING_KEPT:
        if (advice == MADV_UNMERGEABLE) break;
        errno = EINVAL;
        return -1;
    }
    return system_madvise(at, bytes, advice);
}

/* Advice on memory that is a window's, or may be. */
static int advise_window(void *at, size_t bytes, int advice) {
    switch (advice) {
    case MADV_DONTNEED:
    case MADV_FREE: return sharing_discard(at, bytes, advice);
    case MADV_DONTFORK:
    case MADV_DOFORK:
    case MADV_DONTDUMP:
    case MADV_DODUMP: return sharing_advise(at, bytes, advice);
    case MADV_HUGEPAGE: return sharing_say_huge(at, bytes, true);
    case MADV_NOHUGEPAGE: return sharing_say_huge(at, bytes, false);
    case MADV_COLLAPSE: return 0; /* (a part of a window that is lent from mustn't become a huge page) */
    case MADV_NORMAL:
    case MADV_RANDOM:
    case MADV_SEQUENTIAL:
    case MADV_WILLNEED:
    case MADV_REMOVE: /* (of private memory the system refuses it) */
    case MADV_COLD:
    case MADV_PAGEOUT:
    case MADV_POPULATE_READ:
    case MADV_POPULATE_WRITE: return system_madvise(at, bytes, advice);
    default: return advise_otherwise(at, bytes, advice);
    }
}

int monitor_madvise(void *at, size_t bytes, int advice) {
    if (advice == MADV_MERGEABLE && !sharing_is_inside() && sharing_offer(at, bytes)) return 0;
    return sharing_meets(at, bytes) ? advise_window(at, bytes, advice) : system_madvise(at, bytes, advice);
}
int madvise(void *at, size_t bytes, int advice) ALIAS("monitor_madvise");

ssize_t monitor_process_madvise(int process, const struct iovec *buffers, size_t count, int advice, unsigned flags) {
    ssize_t status;
    if (calls_advise(process, buffers, count, advice, flags, &status)) return status;
    return filter_pass(SYS_process_madvise, process, (long)buffers, (long)count, advice, flags);
}
ssize_t process_madvise(int process, const struct iovec *buffers, size_t count, int advice, unsigned flags)
    ALIAS("monitor_process_madvise");

/* ---- mappings ---- */

/* What a call of the system gets. */
struct words {
    long of[6];
};

static long call_mmap(void *with) {
    const struct words *words = with;
    return syscall(SYS_mmap, words->of[0], words->of[1], words->of[2], words->of[3], words->of[4], words->of[5]);
}

void *monitor_mmap(void *at, size_t bytes, int protection, int flags, int file, off_t offset) {
    struct words words = {{(long)at, (long)bytes, protection, flags, file, offset}};
    bool replaces = (flags & MAP_FIXED) != 0 && sharing_meets(at, bytes);
    return (void *)(replaces ? sharing_replace(at, bytes, call_mmap, &words) : call_mmap(&words));
}
void *mmap(void *at, size_t bytes, int protection, int flags, int file, off_t offset) ALIAS("monitor_mmap");
void *mmap64(void *at, size_t bytes, int protection, int flags, int file, off_t offset) ALIAS("monitor_mmap");

static long call_munmap(void *with) {
    const struct words *words = with;
    return syscall(SYS_munmap, words->of[0], words->of[1]);
}

int monitor_munmap(void *at, size_t bytes) {
    struct words words = {{(long)at, (long)bytes}};
    return (int)(sharing_meets(at, bytes) ? sharing_replace(at, bytes, call_munmap, &words) : call_munmap(&words));
}
int munmap(void *at, size_t bytes) ALIAS("monitor_munmap");

static long call_mremap(void *with) {
    const struct words *words = with;
    return syscall(SYS_mremap, words->of[0], words->of[1], words->of[2], words->of[3], words->of[4]);
}

/* Memory of a window that is to be moved leaves it first. Returns false, with errno, if it can't. */
static bool leave_to_move(void *at, size_t bytes) {
    enum sharing_left left = sharing_meets(at, bytes) ? sharing_leave(at, bytes, "mremap") : SHARING_LEFT;
    if (left == SHARING_KEPT) errno = ENOMEM; /* (a device may have pinned pages of it) */
    return left == SHARING_LEFT;
}

void *monitor_mremap(void *at, size_t bytes, size_t new_bytes, int flags, void *to) {
    struct words words = {{(long)at, (long)bytes, (long)new_bytes, flags, (long)to}};
    bool shrinks = (flags & (MREMAP_FIXED | MREMAP_DONTUNMAP)) == 0 && new_bytes > 0 && new_bytes < bytes;
    uint8_t *rest_at = (uint8_t *)at + (new_bytes + PAGE - 1) / PAGE * PAGE, *end = (uint8_t *)at + bytes;
    if (shrinks && rest_at < end && sharing_meets(rest_at, (size_t)(end - rest_at)))
        return (void *)sharing_replace(rest_at, (size_t)(end - rest_at), call_mremap, &words);
    if (!shrinks && !leave_to_move(at, bytes)) return MAP_FAILED;
    bool replaces = (flags & MREMAP_FIXED) != 0 && sharing_meets(to, new_bytes);
    return (void *)(replaces ? sharing_replace(to, new_bytes, call_mremap, &words) : call_mremap(&words));
}

PUBLIC void *mremap(void *at, size_t bytes, size_t new_bytes, int flags, ...) {
    void *to = NULL;
    if (flags & (MREMAP_FIXED | MREMAP_DONTUNMAP)) {
        va_list rest;
        va_start(rest, flags);
        to = va_arg(rest, void *);
        va_end(rest);
    }
    return monitor_mremap(at, bytes, new_bytes, flags, to);
}

/* Whether a range may be protected or locked: nothing of it is lent any more. */
static bool leaves(const void *at, size_t bytes, const char *why) {
    return !sharing_meets(at, bytes) || sharing_leave((void *)(uintptr_t)at, bytes, why) != SHARING_REFUSED;
}

int monitor_mprotect(void *at, size_t bytes, int protection) {
    return leaves(at, bytes, "mprotect") ? (int)syscall(SYS_mprotect, at, bytes, protection) : -1;
}
int mprotect(void *at, size_t bytes, int protection) ALIAS("monitor_mprotect");

int monitor_pkey_mprotect(void *at, size_t bytes, int protection, int key) {
    return leaves(at, bytes, "pkey_mprotect") ? (int)syscall(SYS_pkey_mprotect, at, bytes, protection, key) : -1;
}
int pkey_mprotect(void *at, size_t bytes, int protection, int key) ALIAS("monitor_pkey_mprotect");

/* ---- locked memory ---- */

/* Whether whole pages may be locked: these calls take any address in them. */
static bool leaves_to_lock(const void *at, size_t bytes, const char *why) {
    size_t before = (uintptr_t)at % PAGE;
    return bytes == 0 || leaves((const uint8_t *)at - before, bytes + before, why);
}

int monitor_mlock(const void *at, size_t bytes) {
    return leaves_to_lock(at, bytes, "mlock") ? (int)syscall(SYS_mlock, at, bytes) : -1;
}
int mlock(const void *at, size_t bytes) ALIAS("monitor_mlock");

int monitor_mlock2(const void *at, size_t bytes, unsigned flags) {
    return leaves_to_lock(at, bytes, "mlock2") ? (int)syscall(SYS_mlock2, at, bytes, flags) : -1;
}
int mlock2(const void *at, size_t bytes, unsigned flags) ALIAS("monitor_mlock2");

int monitor_mlockall(int flags) {
    if (!sharing_end("the process locks its memory (mlockall)")) return -1;
    return (int)syscall(SYS_mlockall, flags);
}
int mlockall(int flags) ALIAS("monitor_mlockall");

/* ---- devices, and the monitor's own userfaultfd ---- */

long monitor_ioctl(int descriptor, unsigned long request, void *with) {
    bool is_followed = false;
    request &= UINT32_MAX; /* (the system takes no more of it; an int may have come with its sign) */
    if (!sharing_is_inside() && !calls_prepare_request(request, with, &is_followed)) return -1;
    long status = filter_pass(SYS_ioctl, descriptor, (long)request, (long)with, 0, 0);
    if (is_followed) calls_request_made(descriptor, request, with, status);
    return request == USERFAULTFD_IOC_NEW && sharing_is_inside() ? sharing_own((int)status) : status;
}

PUBLIC int ioctl(int descriptor, unsigned long request, ...) {
    READ_WITH(request)
    return (int)monitor_ioctl(descriptor, request, with);
}

/* Looks what a descriptor that was opened may do. It is closed again if lending would have to end for it, and can't. */
static int opened(int descriptor, bool may_pin) {
    may_pin = descriptor >= 0 && (may_pin || (buffers_may_meet() && devices_of_file(descriptor) != DEVICES_NONE));
    if (!may_pin || sharing_devices(devices_open())) return descriptor;
    int cause = errno;
    syscall(SYS_close, descriptor);
    errno = cause;
    return -1;
}

int monitor_open(int folder, const char *path, int flags, mode_t mode) {
    int descriptor = (int)syscall(SYS_openat, folder, path, flags, mode);
    if (sharing_is_inside()) return sharing_own(descriptor);
    return opened(descriptor, devices_may_be(path, flags));
}

/* The mode is there only if a file may be made. */
#define READ_MODE(FLAGS, MODE)                                                                                                   \
    mode_t MODE = 0;                                                                                                             \
    if ((FLAGS)&O_CREAT || ((FLAGS)&O_TMPFILE) == O_TMPFILE) {                                                                   \
        va_list rest;                                                                                                            \
        va_start(rest, FLAGS);                                                                                                   \
        MODE = va_arg(rest, mode_t);                                                                                             \
        va_end(rest);                                                                                                            \
    }

PUBLIC int open(const char *path, int flags, ...) {
    READ_MODE(flags, mode)
    return monitor_open(AT_FDCWD, path, flags, mode);
}
int open64(const char *path, int flags, ...) ALIAS("open");
PUBLIC int openat(int folder, const char *path, int flags, ...) {
    READ_MODE(flags, mode)
    return monitor_open(folder, path, flags, mode);
}
int openat64(int folder, const char *path, int flags, ...) ALIAS("openat");
/* What programs call that were built with checks (_FORTIFY_SOURCE). */
PUBLIC int __open_2(const char *path, int flags);
PUBLIC int __open_2(const char *path, int flags) { return monitor_open(AT_FDCWD, path, flags, 0); }
int __open64_2(const char *path, int flags) ALIAS("__open_2");
PUBLIC int __openat_2(int folder, const char *path, int flags);
PUBLIC int __openat_2(int folder, const char *path, int flags) { return monitor_open(folder, path, flags, 0); }
int __openat64_2(int folder, const char *path, int flags) ALIAS("__openat_2");

/* A file that is open already may be switched to O_DIRECT. */
static int set_or_get(fcntl_function *after, int descriptor, int command, void *with) {
    int status = after ? after(descriptor, command, with) : (int)syscall(SYS_fcntl, descriptor, command, with);
    if (sharing_is_inside()) return command == F_DUPFD_CLOEXEC ? sharing_own(status) : status;
    if (status < 0 || command != F_SETFL || ((int)(intptr_t)with & O_DIRECT) == 0 || sharing_devices(devices_open()))
        return status;
    int cause = errno;
    syscall(SYS_fcntl, descriptor, F_SETFL, (int)(intptr_t)with & ~O_DIRECT);
    errno = cause;
    return -1;
}
int monitor_fcntl(int descriptor, int command, void *with) { return set_or_get(NULL, descriptor, command, with); }
PUBLIC int fcntl(int descriptor, int command, ...) {
    READ_WITH(command)
    return set_or_get(next.fcntl, descriptor, command, with);
}
PUBLIC int fcntl64(int descriptor, int command, ...) {
    READ_WITH(command)
    return set_or_get(next.fcntl64, descriptor, command, with);
}

/* ---- descriptors ---- */

/* (the library's own are no devices; it closes some at each look, and would look at all descriptors each time) */
int monitor_close(int descriptor) {
    if (sharing_is_inside()) sharing_disown(descriptor);
    if (sharing_owns(descriptor)) return 0;
    int status = (int)syscall(SYS_close, descriptor);
    if (!sharing_is_inside()) devices_closed();
    return status;
}
int close(int descriptor) ALIAS("monitor_close");

/* Closes a range of descriptors but for the library's own. */
int monitor_close_range(unsigned first, unsigned last, int flags) {
    unsigned from = first;
    if (first > last) return (int)syscall(SYS_close_range, first, last, flags); /* the system refuses it */
    devices_closed();
    for (unsigned at = first; at <= last && at < DESCRIPTORS_MOST; at++) {
        if (!sharing_owns((int)at)) continue;
        if (at > from && syscall(SYS_close_range, from, at - 1, flags) != 0) return -1;
        from = at + 1;
    }
    return from > last ? 0 : (int)syscall(SYS_close_range, from, last, flags);
}
int close_range(unsigned first, unsigned last, int flags) ALIAS("monitor_close_range");

PUBLIC void closefrom(int first) { monitor_close_range(first < 0 ? 0 : (unsigned)first, ~0u, 0); }

/*
 * A descriptor in the place of another one, which is closed by that. In the place of one of the library's own there comes none: EBUSY, as the
 * system itself answers where another thread is just opening a file of that number.
 */
int monitor_dup3(int descriptor, int place, int flags) {
    if (!sharing_is_inside() && sharing_owns(place)) return (errno = EBUSY, -1);
    int status = (int)syscall(SYS_dup3, descriptor, place, flags);
    devices_closed();
    return status;
}

int dup3(int descriptor, int place, int flags) ALIAS("monitor_dup3");

int monitor_dup2(int descriptor, int place) {
    if (descriptor != place) return monitor_dup3(descriptor, place, 0);
    return syscall(SYS_fcntl, descriptor, F_GETFD) < 0 ? -1 : place; /* (nothing is put anywhere; the descriptor must be open) */
}
int dup2(int descriptor, int place) ALIAS("monitor_dup2");
