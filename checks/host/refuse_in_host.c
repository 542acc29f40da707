/*
 * Preloaded into the host by checks/host.py: some calls of one or two functions of the system fail. REFUSE names the function, the first
 * call that fails, how many do, and the errno, as in REFUSE=fallocate,3,1,12 or REFUSE=setsockopt,1,99,92:recvmsg,3,1,12. With a negative
 * number in the errno's place these calls don't fail, and take so many milliseconds longer.
 */
#define _GNU_SOURCE
#include <dlfcn.h>
#include <errno.h>
#include <pthread.h>
#include <signal.h>
#include <stdarg.h>
#include <stdatomic.h>
#include <stdbool.h>
#include <stdio.h>
#include <stdlib.h>
#include <string.h>
#include <sys/socket.h>
#include <sys/syscall.h>
#include <sys/types.h>
#include <unistd.h>

struct epoll_event;
struct pollfd;
struct stat;

/* What fails. */
static struct refusal {
    char name[32];
    long first, count;
    int cause;
    atomic_long calls;
} refusals[2];

__attribute__((constructor)) static void begin(void) {
    const char *said = getenv("REFUSE");
    for (int i = 0; said && i < 2; i++) {
        struct refusal *it = &refusals[i];
        if (sscanf(said, "%31[^,],%ld,%ld,%d", it->name, &it->first, &it->count, &it->cause) != 4) abort();
        said = strchr(said, ':');
        if (said) said++;
    }
}

/* What a call of a function fails with, or 0. */
static int refused(const char *function) {
    for (int i = 0; i < 2; i++) {
        struct refusal *it = &refusals[i];
        if (strcmp(function, it->name) != 0) continue;
        long call = atomic_fetch_add(&it->calls, 1) + 1;
        bool is_meant = call >= it->first && call < it->first + it->count;
        if (is_meant && it->cause >= 0) return it->cause;
        if (is_meant) usleep((useconds_t)-it->cause * 1000);
    }
    return 0;
}

static bool is_refused(const char *function) {
    int cause = refused(function);
    if (cause != 0) errno = cause;
    return cause != 0;
}

static void *next_of(const char *function) {
    void *next = dlsym(RTLD_NEXT, function);
    if (!next) abort();
    return next;
}

/* Defines a function that fails with `FAILED`, or calls the system's. */
#define REFUSED(RETURNED, FAILED, NAME, TAKEN, GIVEN)                                                                            \
    RETURNED NAME TAKEN;                                                                                                         \
    RETURNED NAME TAKEN {                                                                                                        \
        RETURNED(*next) TAKEN;                                                                                                   \
        if (is_refused(#NAME)) return FAILED;                                                                                    \
        *(void **)&next = next_of(#NAME);                                                                                        \
        return next GIVEN;                                                                                                       \
    }

REFUSED(int, -1, accept4, (int socket, struct sockaddr *from, socklen_t *size, int flags), (socket, from, size, flags))
REFUSED(int, -1, bind, (int socket, const struct sockaddr *at, socklen_t size), (socket, at, size))
REFUSED(int, -1, listen, (int socket, int backlog), (socket, backlog))
REFUSED(int, -1, socket, (int domain, int type, int protocol), (domain, type, protocol))
REFUSED(int, -1, getsockopt, (int socket, int of, int what, void *value, socklen_t *size), (socket, of, what, value, size))
REFUSED(int, -1, setsockopt, (int socket, int of, int what, const void *value, socklen_t size), (socket, of, what, value, size))
REFUSED(ssize_t, -1, recv, (int socket, void *at, size_t bytes, int flags), (socket, at, bytes, flags))
REFUSED(ssize_t, -1, recvmsg, (int socket, struct msghdr *message, int flags), (socket, message, flags))
REFUSED(ssize_t, -1, send, (int socket, const void *at, size_t bytes, int flags), (socket, at, bytes, flags))
REFUSED(ssize_t, -1, sendmsg, (int socket, const struct msghdr *message, int flags), (socket, message, flags))
REFUSED(int, -1, epoll_create1, (int flags), (flags))
REFUSED(int, -1, epoll_ctl, (int poll, int what, int of, struct epoll_event *event), (poll, what, of, event))
REFUSED(int, -1, epoll_wait, (int poll, struct epoll_event *events, int most, int ms), (poll, events, most, ms))
REFUSED(int, -1, poll, (struct pollfd * of, unsigned long many, int ms), (of, many, ms))
REFUSED(int, -1, eventfd, (unsigned value, int flags), (value, flags))
REFUSED(int, -1, eventfd_read, (int of, unsigned long *value), (of, value))
REFUSED(int, -1, eventfd_write, (int of, unsigned long value), (of, value))
REFUSED(int, -1, pipe2, (int ends[2], int flags), (ends, flags))
REFUSED(ssize_t, -1, read, (int of, void *at, size_t bytes), (of, at, bytes))
REFUSED(ssize_t, -1, write, (int of, const void *at, size_t bytes), (of, at, bytes))
REFUSED(ssize_t, -1, pread, (int of, void *at, size_t bytes, off_t from), (of, at, bytes, from))
REFUSED(int, -1, sigaction, (int number, const struct sigaction *now, struct sigaction *before), (number, now, before))
REFUSED(int, -1, memfd_create, (const char *called, unsigned flags), (called, flags))
REFUSED(int, -1, ftruncate, (int file, off_t bytes), (file, bytes))
REFUSED(int, -1, fchmod, (int file, mode_t mode), (file, mode))
REFUSED(int, -1, chmod, (const char *path, mode_t mode), (path, mode))
REFUSED(int, -1, fstat, (int file, struct stat *about), (file, about))
REFUSED(off_t, -1, lseek, (int file, off_t at, int how), (file, at, how))
REFUSED(int, -1, fallocate, (int file, int how, off_t at, off_t bytes), (file, how, at, bytes))
REFUSED(void *, (void *)-1, mmap, (void *at, size_t bytes, int access, int flags, int file, off_t from),
        (at, bytes, access, flags, file, from))
REFUSED(int, -1, madvise, (void *at, size_t bytes, int advice), (at, bytes, advice))
REFUSED(int, -1, mincore, (void *at, size_t bytes, unsigned char *there), (at, bytes, there))
REFUSED(ssize_t, -1, getrandom, (void *at, size_t bytes, unsigned flags), (at, bytes, flags))
REFUSED(pid_t, -1, fork, (void), ())
REFUSED(int, -1, execv, (const char *path, char *const words[]), (path, words))
REFUSED(pid_t, -1, waitpid, (pid_t process, int *status, int how), (process, status, how))
REFUSED(int, -1, kill, (pid_t process, int number), (process, number))
REFUSED(int, -1, dup2, (int of, int place), (of, place))
REFUSED(char *, NULL, mkdtemp, (char *path), (path))
REFUSED(int, -1, rmdir, (const char *path), (path))
REFUSED(int, -1, sigtimedwait, (const sigset_t *of, siginfo_t *got, const struct timespec *most), (of, got, most))
REFUSED(int, -1, setenv, (const char *name, const char *value, int over), (name, value, over))
REFUSED(int, -1, connect, (int socket, const struct sockaddr *to, socklen_t size), (socket, to, size))
REFUSED(int, errno, pthread_create, (pthread_t * thread, const pthread_attr_t *how, void *(*run)(void *), void *with),
        (thread, how, run, with))

int fcntl(int file, int what, ...);
int fcntl(int file, int what, ...) {
    int (*next)(int, int, ...);
    va_list more;
    va_start(more, what);
    long value = va_arg(more, long);
    va_end(more);
    if (is_refused("fcntl")) return -1;
    *(void **)&next = next_of("fcntl");
    return next(file, what, value);
}

int ioctl(int of, unsigned long request, ...);
int ioctl(int of, unsigned long request, ...) {
    int (*next)(int, unsigned long, ...);
    va_list more;
    va_start(more, request);
    void *with = va_arg(more, void *);
    va_end(more);
    if (is_refused("ioctl")) return -1;
    *(void **)&next = next_of("ioctl");
    return next(of, request, with);
}

int open(const char *path, int flags, ...);
int open(const char *path, int flags, ...) {
    int (*next)(const char *, int, ...);
    va_list more;
    va_start(more, flags);
    unsigned mode = va_arg(more, unsigned);
    va_end(more);
    if (is_refused("open")) return -1;
    *(void **)&next = next_of("open");
    return next(path, flags, mode);
}

/* (mbind has no function of the C library) */
long syscall(long number, ...) {
    long (*next)(long, ...);
    long with[6];
    va_list more;
    va_start(more, number);
    for (int i = 0; i < 6; i++) with[i] = va_arg(more, long);
    va_end(more);
    if (number == SYS_mbind && is_refused("mbind")) return -1;
    *(void **)&next = next_of("syscall");
    return next(number, with[0], with[1], with[2], with[3], with[4], with[5]);
}

int prctl(int what, ...);
int prctl(int what, ...) {
    int (*next)(int, ...);
    unsigned long with[4];
    va_list more;
    va_start(more, what);
    for (int i = 0; i < 4; i++) with[i] = va_arg(more, unsigned long);
    va_end(more);
    if (is_refused("prctl")) return -1;
    *(void **)&next = next_of("prctl");
    return next(what, with[0], with[1], with[2], with[3]);
}
