#define _GNU_SOURCE
/*
 * The functions of the C library that read and write files, interposed in a virtual machine monitor. A call on a file that was opened with
 * O_DIRECT pins the pages of its buffers until it ends, and so may one on a file of FUSE and the like; of those the windows hear. All other
 * calls go on as they are.
 */
#include "buffers.h"
#include "monitor.h"
#include "sharing.h"
#include "trouble.h"
#include <dlfcn.h>
#include <pthread.h>

#define PUBLIC __attribute__((visibility("default")))

/* The C library's own, which threads can be cancelled in. NULL before this library is loaded. */
static struct {
    __typeof__(read) *read;
    __typeof__(write) *write;
    __typeof__(pread) *pread;
    __typeof__(pwrite) *pwrite;
    __typeof__(readv) *readv, *writev;
    __typeof__(preadv) *preadv, *pwritev;
    __typeof__(preadv2) *preadv2, *pwritev2;
} next;

/* Finds one of them, by this name. */
#define FIND(MEMBER, NAME) next.MEMBER = (__typeof__(next.MEMBER))(uintptr_t)dlsym(RTLD_NEXT, NAME)

__attribute__((constructor)) static void find_next(void) {
    FIND(read, "read");
    FIND(write, "write");
    FIND(pread, "pread64");
    FIND(pwrite, "pwrite64");
    FIND(readv, "readv");
    FIND(writev, "writev");
    FIND(preadv, "preadv64");
    FIND(pwritev, "pwritev64");
    FIND(preadv2, "preadv64v2");
    FIND(pwritev2, "pwritev64v2");
}

/* ---- what the windows hear ---- */

/* (apart, since the copies take 16 KiB of stack, and few calls need them) */
__attribute__((noinline)) static void begin_copied(struct sharing_transfers *transfers, const struct iovec *buffers, int count) {
    struct iovec copies[BUFFERS_MOST];
    if (buffers_copy(copies, buffers, (size_t)count) && buffers_meet(copies, (size_t)count))
        sharing_transfers_begin(transfers, copies, count);
}

/* Counts a call, if it may pin memory of a window, and is one that the system takes. */
static struct sharing_transfers begin_vector(int file, const struct iovec *buffers, int count) {
    struct sharing_transfers transfers = {.is_early = false};
    if (count <= 0 || count > BUFFERS_MOST || !buffers_may_meet() || !buffers_are_pinned_by(file)) return transfers;
    int cause = errno;
    begin_copied(&transfers, buffers, count);
    errno = cause;
    return transfers;
}

static struct sharing_transfers begin(int file, void *buffer, size_t bytes) {
    const struct iovec whole = {buffer, bytes};
    struct sharing_transfers transfers = {.is_early = false};
    int cause = errno;
    if (buffers_meet(&whole, 1) && buffers_are_pinned_by(file)) sharing_transfers_begin(&transfers, &whole, 1);
    errno = cause;
    return transfers;
}

/*
 * The transfers of the calls in which this thread is: of one, and of those that handlers of signals make in it. A thread that is cancelled in
 * a call leaves them here, and its end ends them: else their pages would never be lent again. So does one that leaves a call by a jump, which a
 * handler may do: a cleanup of the call's own would be left behind, and be called where its frame was once.
 */
enum { CALLS_MOST = 4 };
static _Thread_local struct {
    size_t count;
    struct sharing_transfers of[CALLS_MOST];
} calls __attribute__((tls_model("initial-exec")));
static pthread_key_t key;
static bool has_key;

/* Ends what is under way since a place. */
static void end_since(size_t place) {
    while (calls.count > place) {
        struct sharing_transfers transfers = calls.of[calls.count - 1];
        calls.of[calls.count - 1] = (struct sharing_transfers){.is_early = false};
        calls.count--;
        sharing_transfers_end(&transfers);
    }
}

static void end_thread(void *unused) {
    (void)unused;
    end_since(0);
}

__attribute__((constructor)) static void make_key(void) { has_key = pthread_key_create(&key, end_thread) == 0; }

/* Keeps transfers that have begun. Returns their place, or CALLS_MOST if there is none. */
static size_t keep(const struct sharing_transfers *transfers) {
    size_t place = calls.count;
    if (!has_key || place >= CALLS_MOST || pthread_setspecific(key, &calls) != 0) return CALLS_MOST;
    calls.count = place + 1; /* (a handler may come at any time) */
    calls.of[place] = *transfers;
    return place;
}

static void end(size_t place, const struct sharing_transfers *transfers) {
    int cause = errno;
    if (place < CALLS_MOST) end_since(place);
    else sharing_transfers_end(transfers);
    errno = cause;
}

/* Makes a call between the beginning and the end of its transfers. */
#define TRANSFER(BEGIN, CALL)                                                                                                    \
    const struct sharing_transfers transfers = BEGIN;                                                                            \
    if (!sharing_are_transfers(&transfers)) return CALL;                                                                         \
    const size_t place = keep(&transfers);                                                                                       \
    const ssize_t status = CALL;                                                                                                 \
    end(place, &transfers);                                                                                                      \
    return status

/* ---- one buffer ---- */

PUBLIC ssize_t read(int file, void *buffer, size_t bytes) {
    TRANSFER(begin(file, buffer, bytes), next.read ? next.read(file, buffer, bytes) : syscall(SYS_read, file, buffer, bytes));
}

PUBLIC ssize_t write(int file, const void *buffer, size_t bytes) {
    TRANSFER(begin(file, (void *)(uintptr_t)buffer, bytes),
             next.write ? next.write(file, buffer, bytes) : syscall(SYS_write, file, buffer, bytes));
}

PUBLIC ssize_t pread64(int file, void *buffer, size_t bytes, off_t from) {
    TRANSFER(begin(file, buffer, bytes),
             next.pread ? next.pread(file, buffer, bytes, from) : syscall(SYS_pread64, file, buffer, bytes, from));
}
PUBLIC ssize_t pread(int file, void *buffer, size_t bytes, off_t from) __attribute__((alias("pread64")));

PUBLIC ssize_t pwrite64(int file, const void *buffer, size_t bytes, off_t to) {
    TRANSFER(begin(file, (void *)(uintptr_t)buffer, bytes),
             next.pwrite ? next.pwrite(file, buffer, bytes, to) : syscall(SYS_pwrite64, file, buffer, bytes, to));
}
PUBLIC ssize_t pwrite(int file, const void *buffer, size_t bytes, off_t to) __attribute__((alias("pwrite64")));

/* ---- several buffers ---- */

PUBLIC ssize_t readv(int file, const struct iovec *buffers, int count) {
    TRANSFER(begin_vector(file, buffers, count),
             next.readv ? next.readv(file, buffers, count) : syscall(SYS_readv, file, buffers, count));
}

PUBLIC ssize_t writev(int file, const struct iovec *buffers, int count) {
    TRANSFER(begin_vector(file, buffers, count),
             next.writev ? next.writev(file, buffers, count) : syscall(SYS_writev, file, buffers, count));
}

PUBLIC ssize_t preadv64(int file, const struct iovec *buffers, int count, off_t from) {
    TRANSFER(begin_vector(file, buffers, count),
             next.preadv ? next.preadv(file, buffers, count, from) : syscall(SYS_preadv, file, buffers, count, from, 0L));
}
PUBLIC ssize_t preadv(int file, const struct iovec *buffers, int count, off_t from) __attribute__((alias("preadv64")));

PUBLIC ssize_t pwritev64(int file, const struct iovec *buffers, int count, off_t to) {
    TRANSFER(begin_vector(file, buffers, count),
             next.pwritev ? next.pwritev(file, buffers, count, to) : syscall(SYS_pwritev, file, buffers, count, to, 0L));
}
PUBLIC ssize_t pwritev(int file, const struct iovec *buffers, int count, off_t to) __attribute__((alias("pwritev64")));

PUBLIC ssize_t preadv64v2(int file, const struct iovec *buffers, int count, off_t from, int flags) {
    TRANSFER(begin_vector(file, buffers, count), next.preadv2 ? next.preadv2(file, buffers, count, from, flags)
                                                              : syscall(SYS_preadv2, file, buffers, count, from, 0L, flags));
}
PUBLIC ssize_t preadv2(int file, const struct iovec *buffers, int count, off_t from, int flags)
    __attribute__((alias("preadv64v2")));

PUBLIC ssize_t pwritev64v2(int file, const struct iovec *buffers, int count, off_t to, int flags) {
    TRANSFER(begin_vector(file, buffers, count), next.pwritev2 ? next.pwritev2(file, buffers, count, to, flags)
                                                               : syscall(SYS_pwritev2, file, buffers, count, to, 0L, flags));
}
PUBLIC ssize_t pwritev2(int file, const struct iovec *buffers, int count, off_t to, int flags)
    __attribute__((alias("pwritev64v2")));

/* ---- by its number ---- */

long monitor_transfer(int number, const long of[6]) {
    const int file = (int)of[0];
    void *const what = (void *)of[1];
    bool is_of_one = number == SYS_read || number == SYS_write || number == SYS_pread64 || number == SYS_pwrite64;
    TRANSFER(is_of_one ? begin(file, what, (size_t)of[2]) : begin_vector(file, what, (int)of[2]),
             syscall(number, of[0], of[1], of[2], of[3], of[4], of[5]));
}

/* ---- what programs call that were built with checks (_FORTIFY_SOURCE) ---- */

PUBLIC ssize_t __read_chk(int file, void *buffer, size_t bytes, size_t most);
PUBLIC ssize_t __read_chk(int file, void *buffer, size_t bytes, size_t most) {
    if (bytes > most) abort();
    return read(file, buffer, bytes);
}

PUBLIC ssize_t __pread64_chk(int file, void *buffer, size_t bytes, off_t from, size_t most);
PUBLIC ssize_t __pread64_chk(int file, void *buffer, size_t bytes, off_t from, size_t most) {
    if (bytes > most) abort();
    return pread64(file, buffer, bytes, from);
}
PUBLIC ssize_t __pread_chk(int file, void *buffer, size_t bytes, off_t from, size_t most);
PUBLIC ssize_t __pread_chk(int file, void *buffer, size_t bytes, off_t from, size_t most) {
    return __pread64_chk(file, buffer, bytes, from, most);
}
