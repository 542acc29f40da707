#define _GNU_SOURCE
#include "calls.h"
#include "../newer.h"
#include "check.h"
#include <errno.h>
#include <fcntl.h>
#include <stdarg.h>
#include <sys/mman.h>
#include <sys/resource.h>
#include <sys/syscall.h>
#include <sys/types.h>

int __real_fcntl(int fd, int command, ...);
int __wrap_fcntl(int fd, int command, ...);
int __real_getrlimit(int resource, struct rlimit *limit);
int __wrap_getrlimit(int resource, struct rlimit *limit);
int __real_ioctl(int fd, unsigned long request, ...);
int __wrap_ioctl(int fd, unsigned long request, ...);
int __real_madvise(void *at, size_t bytes, int advice);
int __wrap_madvise(void *at, size_t bytes, int advice);
void *__real_mmap(void *at, size_t bytes, int protection, int flags, int file, off_t from);
void *__wrap_mmap(void *at, size_t bytes, int protection, int flags, int file, off_t from);
int __real_mprotect(void *at, size_t bytes, int protection);
int __wrap_mprotect(void *at, size_t bytes, int protection);
void *__real_mremap(void *at, size_t old_bytes, size_t bytes, int flags, ...);
void *__wrap_mremap(void *at, size_t old_bytes, size_t bytes, int flags, ...);
int __real_munmap(void *at, size_t bytes);
int __wrap_munmap(void *at, size_t bytes);
int __real_open(const char *path, int flags, ...);
int __wrap_open(const char *path, int flags, ...);
ssize_t __real_pread(int fd, void *to, size_t bytes, off_t from);
ssize_t __wrap_pread(int fd, void *to, size_t bytes, off_t from);
long __real_syscall(long number, ...);
long __wrap_syscall(long number, ...);

enum { PAGE_BYTES = 4096, CAUSES = 3 };

/* The name of a kind, and errors that the system could return. */
struct kind {
    const char *name;
    int causes[CAUSES];
};
static const struct kind kinds[CALLS] = {
    [CALL_MOVE] = {"move", {EBUSY, ENOMEM, EAGAIN}},
    [CALL_COPY] = {"copy", {ENOMEM, EAGAIN, ENOMEM}},
    [CALL_PROTECT] = {"protect", {ENOMEM, EAGAIN, ENOENT}},
    [CALL_WATCH] = {"watch", {ENOMEM, EBUSY, EINVAL}},
    [CALL_END_WATCH] = {"end-watch", {EINVAL, ENOMEM, EAGAIN}},
    [CALL_WAKE] = {"wake", {EINVAL, EAGAIN, EFAULT}},
    [CALL_OPEN_FAULTS] = {"open-faults", {EPERM, ENOMEM, EMFILE}},
    [CALL_SCAN] = {"scan", {ENOMEM, EINTR, EFAULT}},
    [CALL_PAGEMAP] = {"pagemap", {EIO, EPERM, ENOMEM}},
    [CALL_ASK_MAPPING] = {"ask-mapping", {ENOTTY, ENOENT, ENOMEM}},
    [CALL_MAP] = {"map", {ENOMEM, EAGAIN, ENFILE}},
    [CALL_MAP_FIXED] = {"map-fixed", {ENOMEM, EAGAIN, ENFILE}},
    [CALL_UNMAP] = {"unmap", {ENOMEM, EINTR, EPERM}},
    [CALL_REMAP] = {"remap", {ENOMEM, EAGAIN, EFAULT}},
    [CALL_MPROTECT] = {"mprotect", {ENOMEM, EACCES, EINTR}},
    [CALL_DONTFORK] = {"dontfork", {ENOMEM, EAGAIN, EINTR}},
    [CALL_DOFORK] = {"dofork", {ENOMEM, EAGAIN, EINTR}},
    [CALL_DUMP] = {"dump", {ENOMEM, EAGAIN, EINTR}},
    [CALL_NOHUGEPAGE] = {"nohugepage", {ENOMEM, EAGAIN, EINTR}},
    [CALL_HUGEPAGE] = {"hugepage", {ENOMEM, EAGAIN, EINTR}},
    [CALL_UNMERGEABLE] = {"unmergeable", {ENOMEM, EAGAIN, EINTR}},
    [CALL_MERGEABLE] = {"mergeable", {ENOMEM, EAGAIN, EINTR}},
    [CALL_DONTNEED] = {"dontneed", {ENOMEM, EINVAL, EINTR}},
    [CALL_POPULATE_READ] = {"populate-read", {ENOMEM, EFAULT, EINTR}},
    [CALL_POPULATE_WRITE] = {"populate-write", {ENOMEM, EFAULT, EINTR}},
    [CALL_OTHER_ADVICE] = {"other-advice", {ENOMEM, EAGAIN, EINVAL}},
    [CALL_SET_POLICY] = {"set-policy", {ENOMEM, EPERM, EIO}},
    [CALL_READ_POLICY] = {"read-policy", {ENOMEM, EINVAL, EFAULT}},
    [CALL_OPEN] = {"open", {EMFILE, ENOMEM, EACCES}},
    [CALL_READ] = {"read", {EIO, ENOMEM, EINTR}},
    [CALL_DESCRIPTOR] = {"descriptor", {EMFILE, EINVAL, ENOMEM}},
    [CALL_LIMIT] = {"limit", {EPERM, EFAULT, EINVAL}},
    [CALL_ASK] = {"ask", {ENOTCONN, ENOMEM, EIO}},
    [CALL_LEND] = {"lend", {ENOMEM, ETIMEDOUT, EIO}},
    [CALL_RELEASE] = {"release", {EPIPE, ENOMEM, EIO}},
};

bool call_has_half(enum call call) {
    bool is_advice = call >= CALL_DONTFORK && call <= CALL_OTHER_ADVICE;
    bool is_of_pages = call == CALL_MOVE || call == CALL_PROTECT || call == CALL_WATCH || call == CALL_END_WATCH;
    return is_advice || is_of_pages || call == CALL_SCAN || call == CALL_PAGEMAP || call == CALL_READ;
}

static struct refusal planned;
static unsigned step_now, made[CALLS], refused[CALLS], refused_all;
static uint64_t state;
static void (*before_watch)(uintptr_t at, size_t bytes);
static _Thread_local bool is_counted;

const char *call_name(enum call call) { return call < CALLS ? kinds[call].name : "any"; }

void calls_begin(const struct refusal *refusal) {
    planned = refusal != NULL ? *refusal : (struct refusal){.count = 0};
    for (int i = 0; i < CALLS; i++) refused[i] = 0;
    refused_all = 0;
    state = planned.draw;
    calls_step(0);
}

void calls_step(unsigned step) {
    step_now = step;
    for (int i = 0; i < CALLS; i++) made[i] = 0;
}

void calls_before_watch(void (*watches)(uintptr_t at, size_t bytes)) { before_watch = watches; }

void calls_stop(void) { planned.count = 0; }

void calls_count(bool do_count) { is_counted = do_count; }

unsigned calls_made(enum call call) { return made[call]; }

unsigned calls_refused(void) { return refused_all; }

unsigned calls_refused_of(enum call call) { return refused[call]; }

/* Whether a call is refused, which was counted. */
static bool is_refused(enum call call) {
    if (planned.call == CALLS && planned.count > 0) return draw(&state, planned.one_in) == 0;
    if (call != planned.call || refused_all >= planned.count) return false;
    return refused_all > 0 || (step_now == planned.step && made[call] >= planned.from);
}

/* Counts a call. Returns 0, or the errno that it is refused with. */
static int count(enum call call) {
    if (!is_counted) return 0;
    made[call]++;
    if (!is_refused(call)) return 0;
    refused[call]++;
    refused_all++;
    if (planned.call == CALLS) planned.is_half = draw(&state, 4) == 0;
    return kinds[call].causes[(planned.draw + refused_all) % CAUSES];
}

int calls_of_lender(enum call call) { return count(call); }

static int fail(int cause) {
    errno = cause;
    return -1;
}

/* So many bytes are half of some pages, in whole pages. */
static uint64_t half_of(uint64_t bytes) { return bytes / PAGE_BYTES / 2 * PAGE_BYTES; }

/* Which kind a request of ioctl is; CALLS if none. */
static enum call kind_of_request(unsigned long request) {
    switch (request) {
    case MOVE_PAGES: return CALL_MOVE;
    case UFFDIO_COPY: return CALL_COPY;
    case UFFDIO_WRITEPROTECT: return CALL_PROTECT;
    case UFFDIO_REGISTER: return CALL_WATCH;
    case UFFDIO_UNREGISTER: return CALL_END_WATCH;
    case UFFDIO_WAKE: return CALL_WAKE;
    case UFFDIO_API:
    case USERFAULTFD_IOC_NEW: return CALL_OPEN_FAULTS;
    case SCAN_PAGES: return CALL_SCAN;
    case ASK_MAPPING: return CALL_ASK_MAPPING;
    default: return CALLS;
    }
}

/* Does half of what a request asks for. */
static void do_half(int fd, unsigned long request, void *with) {
    struct uffdio_range range;
    struct uffdio_register watched;
    struct uffdio_writeprotect protect;
    if (request == UFFDIO_UNREGISTER) {
        range = *(struct uffdio_range *)with;
        range.len = half_of(range.len);
        if (range.len > 0) __real_ioctl(fd, request, &range);
    } else if (request == UFFDIO_REGISTER) {
        watched = *(struct uffdio_register *)with;
        watched.range.len = half_of(watched.range.len);
        if (watched.range.len > 0) __real_ioctl(fd, request, &watched);
    } else if (request == UFFDIO_WRITEPROTECT) {
        protect = *(struct uffdio_writeprotect *)with;
        protect.range.len = half_of(protect.range.len);
        if (protect.range.len > 0) __real_ioctl(fd, request, &protect);
    }
}

/* Moves half of the pages. The system returns EAGAIN then. */
static int move_half(int fd, struct move *move, int cause) {
    struct move half = *move;
    half.bytes = half_of(move->bytes);
    half.moved = -cause;
    if (half.bytes > 0) __real_ioctl(fd, MOVE_PAGES, &half);
    move->moved = half.moved;
    return fail(half.moved > 0 ? EAGAIN : cause);
}

/* Looks at half of the pages only, as where there is no room for more regions. */
static int scan_half(int fd, struct scan *scan) {
    struct scan half = *scan;
    uint64_t bytes = half_of(scan->end - scan->start);
    if (bytes > 0) half.end = scan->start + bytes;
    int found = __real_ioctl(fd, SCAN_PAGES, &half);
    scan->walk_end = half.walk_end;
    return found;
}

int __wrap_ioctl(int fd, unsigned long request, ...) {
    va_list rest;
    va_start(rest, request);
    void *with = va_arg(rest, void *);
    va_end(rest);
    enum call call = kind_of_request(request);
    const struct uffdio_range *watched = with;
    if (call == CALL_WATCH && is_counted && before_watch != NULL) before_watch((uintptr_t)watched->start, (size_t)watched->len);
    int cause = call < CALLS ? count(call) : 0;
    if (cause == 0) return __real_ioctl(fd, request, with);
    /* (the system looks for another watch in all mappings before it begins with the first one) */
    bool is_half = planned.is_half && call_has_half(call) && !(call == CALL_WATCH && cause == EBUSY);
    if (is_half && request == SCAN_PAGES) return scan_half(fd, with);
    if (is_half && request == MOVE_PAGES) return move_half(fd, with, cause);
    if (is_half) do_half(fd, request, with);
    if (request == MOVE_PAGES) ((struct move *)with)->moved = -cause;
    if (request == UFFDIO_COPY) ((struct uffdio_copy *)with)->copy = -cause;
    return fail(cause);
}

static enum call kind_of_advice(int advice) {
    switch (advice) {
    case MADV_DONTFORK: return CALL_DONTFORK;
    case MADV_DOFORK: return CALL_DOFORK;
    case MADV_DONTDUMP:
    case MADV_DODUMP: return CALL_DUMP;
    case MADV_NOHUGEPAGE: return CALL_NOHUGEPAGE;
    case MADV_HUGEPAGE: return CALL_HUGEPAGE;
    case MADV_UNMERGEABLE: return CALL_UNMERGEABLE;
    case MADV_MERGEABLE: return CALL_MERGEABLE;
    case MADV_DONTNEED: return CALL_DONTNEED;
    case MADV_POPULATE_READ: return CALL_POPULATE_READ;
    case MADV_POPULATE_WRITE: return CALL_POPULATE_WRITE;
    default: return CALL_OTHER_ADVICE;
    }
}

int __wrap_madvise(void *at, size_t bytes, int advice) {
    int cause = count(kind_of_advice(advice));
    if (cause == 0) return __real_madvise(at, bytes, advice);
    if (planned.is_half && half_of(bytes) > 0) __real_madvise(at, half_of(bytes), advice);
    return fail(cause);
}

void *__wrap_mmap(void *at, size_t bytes, int protection, int flags, int file, off_t from) {
    int cause = count((flags & MAP_FIXED) != 0 ? CALL_MAP_FIXED : CALL_MAP);
    if (cause == 0) return __real_mmap(at, bytes, protection, flags, file, from);
    errno = cause;
    return MAP_FAILED;
}

int __wrap_munmap(void *at, size_t bytes) {
    int cause = count(CALL_UNMAP);
    return cause == 0 ? __real_munmap(at, bytes) : fail(cause);
}

void *__wrap_mremap(void *at, size_t old_bytes, size_t bytes, int flags, ...) {
    va_list rest;
    va_start(rest, flags);
    void *to = va_arg(rest, void *);
    va_end(rest);
    int cause = count(CALL_REMAP);
    if (cause == 0) return __real_mremap(at, old_bytes, bytes, flags, to);
    errno = cause;
    return MAP_FAILED;
}

int __wrap_mprotect(void *at, size_t bytes, int protection) {
    int cause = count(CALL_MPROTECT);
    return cause == 0 ? __real_mprotect(at, bytes, protection) : fail(cause);
}

int __wrap_open(const char *path, int flags, ...) {
    va_list rest;
    va_start(rest, flags);
    unsigned mode = (flags & (O_CREAT | O_TMPFILE)) != 0 ? va_arg(rest, unsigned) : 0;
    va_end(rest);
    int cause = count(CALL_OPEN);
    return cause == 0 ? __real_open(path, flags, mode) : fail(cause);
}

ssize_t __wrap_pread(int fd, void *to, size_t bytes, off_t from) {
    int cause = count(CALL_PAGEMAP);
    if (cause == 0) return __real_pread(fd, to, bytes, from);
    return planned.is_half ? __real_pread(fd, to, bytes / 2 / sizeof(uint64_t) * sizeof(uint64_t), from) : fail(cause);
}

int __wrap_fcntl(int fd, int command, ...) {
    va_list rest;
    va_start(rest, command);
    long with = va_arg(rest, long);
    va_end(rest);
    int cause = count(CALL_DESCRIPTOR);
    return cause == 0 ? __real_fcntl(fd, command, with) : fail(cause);
}

int __wrap_getrlimit(int resource, struct rlimit *limit) {
    int cause = count(CALL_LIMIT);
    return cause == 0 ? __real_getrlimit(resource, limit) : fail(cause);
}

static enum call kind_of_number(long number) {
    switch (number) {
    case SYS_mbind: return CALL_SET_POLICY;
    case SYS_get_mempolicy: return CALL_READ_POLICY;
    case SYS_read: return CALL_READ;
    case SYS_userfaultfd: return CALL_OPEN_FAULTS;
    default: return CALLS;
    }
}

long __wrap_syscall(long number, ...) {
    long words[6];
    va_list rest;
    va_start(rest, number);
    for (int i = 0; i < 6; i++) words[i] = va_arg(rest, long);
    va_end(rest);
    enum call call = kind_of_number(number);
    int cause = call < CALLS ? count(call) : 0;
    if (cause != 0 && !(planned.is_half && call == CALL_READ)) return fail(cause);
    if (cause != 0 && words[2] > 1) words[2] /= 2;
    return __real_syscall(number, words[0], words[1], words[2], words[3], words[4], words[5]);
}
