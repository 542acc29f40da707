/*
 * A stand-in for a monitor, to be run under libpageshare-window.so: one thing after the other that is hard for a library that maps frames
 * in a monitor's memory, each by its name. Words: WAY, see `ways`; or pinned-WAY or at-once-WAY, see do_to_pinned. Prints what isn't so, and at last "WAY: good" (status 0) or "WAY: WRONG" (1); or
 * "WAY: left out" (77).
 */
#define _GNU_SOURCE
#include "breaker/ring.h"
#include "instruction.h"
#include "offered.h"
#include <aio.h>
#include <alloca.h>
#include <dirent.h>
#include <errno.h>
#include <fcntl.h>
#include <linux/vfio.h>
#include <pthread.h>
#include <setjmp.h>
#include <signal.h>
#include <stdatomic.h>
#include <sys/ioctl.h>
#include <sys/resource.h>
#include <sys/syscall.h>
#include <sys/time.h>
#include <sys/uio.h>
#include <sys/wait.h>
#include <time.h>

enum { PAGE = 4096, PAGES = 1024, HALF = PAGES / 2, SECONDS = 30, LEFT_OUT = 77 };

static unsigned wrong;
static bool is_left_out;

static void check(bool is_so, const char *what) {
    if (is_so) return;
    printf("not so: %s\n", what);
    fflush(stdout);
    wrong++;
}

static void left_out(const char *why) {
    printf("left out: %s\n", why);
    is_left_out = true;
}

/* ---- memory ---- */

static void fill(uint8_t *at, size_t pages, unsigned first) {
    for (size_t i = 0; i < pages; i++) memset(at + i * PAGE, (int)(first + i / 2 % 100), PAGE);
}

/* Pages of a range that aren't as `fill` has filled them. */
static size_t differing(const uint8_t *at, size_t from, size_t to, unsigned first) {
    size_t count = 0;
    for (size_t i = from; i < to; i++) {
        const uint8_t byte = (uint8_t)(first + i / 2 % 100);
        size_t b = 0;
        while (b < PAGE && at[i * PAGE + b] == byte) b++;
        count += b < PAGE;
    }
    return count;
}

static bool is_full_of(const uint8_t *at, size_t bytes, int byte) {
    for (size_t i = 0; i < bytes; i++)
        if (at[i] != byte) return false;
    return true;
}

static uint8_t *offered(size_t pages) {
    uint8_t *at = mmap(NULL, pages * PAGE, PROT_READ | PROT_WRITE, MAP_PRIVATE | MAP_ANONYMOUS, -1, 0);
    if (at == MAP_FAILED) perror("mmap"), exit(2);
    fill(at, pages, 1);
    madvise(at, pages * PAGE, MADV_MERGEABLE);
    madvise(at, pages * PAGE, MADV_DONTFORK);
    return at;
}

static uint8_t *lent(size_t pages) {
    uint8_t *at = offered(pages);
    check(wait_for_count("lent", (long)pages, SECONDS), "all pages are lent");
    return at;
}

static long now_us(void) {
    struct timespec now;
    clock_gettime(CLOCK_MONOTONIC, &now);
    return now.tv_sec * 1000000 + now.tv_nsec / 1000;
}

/* ---- parts that leave ---- */

/* The first half is protected, the second unmapped: the first keeps its content. */
static void kept(void) {
    uint8_t *at = lent(PAGES);
    check(mprotect(at, HALF * PAGE, PROT_READ | PROT_WRITE) == 0, "mprotect");
    check(munmap(at + HALF * PAGE, HALF * PAGE) == 0, "munmap");
    check(differing(at, 0, HALF, 1) == 0, "pages that had left keep their content");
}

/* The first half is unmapped, and something else is mapped there: the end of the second half doesn't touch it. */
static void foreign(void) {
    uint8_t *at = lent(PAGES);
    check(munmap(at, HALF * PAGE) == 0, "munmap");
    uint8_t *other = mmap(at, HALF * PAGE, PROT_READ | PROT_WRITE, MAP_PRIVATE | MAP_ANONYMOUS | MAP_FIXED_NOREPLACE, -1, 0);
    if (other != at) return left_out("the place is taken");
    memset(other, 'X', HALF * PAGE);
    check(munmap(at + HALF * PAGE, HALF * PAGE) == 0, "munmap");
    check(is_full_of(other, HALF * PAGE, 'X'), "memory that was never offered keeps its content");
}

/* A range with a hole is unmapped. */
static void hole(void) {
    uint8_t *at = lent(PAGES);
    check(munmap(at + 100 * PAGE, 50 * PAGE) == 0, "munmap");
    check(madvise(at, 100 * PAGE, MADV_DONTNEED) == 0 && is_full_of(at, 100 * PAGE, 0), "a discard before the hole");
    check(munmap(at, PAGES * PAGE) == 0, "munmap of all, with the hole");
    unsigned char there;
    check(mincore(at, PAGE, &there) == -1 && errno == ENOMEM, "nothing is left");
}

/* A window of which nothing is left is used no more. */
static void used_later(void) {
    uint8_t *at = lent(PAGES);
    check(munmap(at, HALF * PAGE) == 0, "munmap");
    check(mprotect(at + HALF * PAGE, HALF * PAGE, PROT_READ | PROT_WRITE) == 0, "mprotect of the rest");
    sleep(1);
    check(madvise(at + HALF * PAGE, HALF * PAGE, MADV_DONTNEED) == 0, "a discard of the rest");
    check(is_full_of(at + HALF * PAGE, HALF * PAGE, 0), "it is zeros");
    check(munmap(at + HALF * PAGE, HALF * PAGE) == 0, "munmap of the rest");
}

/* Part of a range is moved, and moved back into its hole, when the rest is gone. */
static void moved(void) {
    uint8_t *at = lent(PAGES), *to = mmap(NULL, HALF * PAGE, PROT_NONE, MAP_PRIVATE | MAP_ANONYMOUS, -1, 0);
    check(mremap(at, HALF * PAGE, HALF * PAGE, MREMAP_MAYMOVE | MREMAP_FIXED, to) == to, "mremap");
    check(munmap(at + HALF * PAGE, HALF * PAGE) == 0, "munmap of the rest");
    check(mremap(to, HALF * PAGE, HALF * PAGE, MREMAP_MAYMOVE | MREMAP_FIXED, at) == at, "mremap back");
    check(differing(at, 0, HALF, 1) == 0, "what was moved has its content");
}

/* Something is said of a part of a range that is no window yet. */
static void advised(void) {
    static const int kinds[] = {MADV_DONTDUMP, MADV_DODUMP, MADV_DONTFORK, MADV_DOFORK};
    uint8_t *at = offered(PAGES);
    alarm(SECONDS);
    for (size_t i = 0; i < 4; i++) check(madvise(at + i * 10 * PAGE, 20 * PAGE, kinds[i]) == 0, "advice on a part");
    check(differing(at, 0, PAGES, 1) == 0, "all is there");
}

/* Calls that the kernel refuses lose nothing. */
static void refused(void) {
    uint8_t *at = lent(PAGES), *none = mmap(NULL, PAGE, PROT_NONE, MAP_PRIVATE | MAP_ANONYMOUS, -1, 0);
    munmap(none, PAGE);
    check(mmap(at, HALF * PAGE, PROT_READ, MAP_PRIVATE | MAP_FIXED, 9999, 0) == MAP_FAILED && errno == EBADF, "mmap of no file");
    check(mmap(at, HALF * PAGE, PROT_READ, MAP_FIXED, -1, 0) == MAP_FAILED, "mmap of no kind");
    check(mremap(none, PAGE, PAGE, MREMAP_MAYMOVE | MREMAP_FIXED, at) == MAP_FAILED, "mremap of nothing");
    check(mremap(at, PAGE, PAGE, MREMAP_FIXED, at + PAGE) == MAP_FAILED && errno == EINVAL,
          "mremap to a place without MREMAP_MAYMOVE");
    check(munmap(at + 1, PAGE) == -1 && errno == EINVAL, "munmap of no page");
    check(madvise(at + 1, PAGE, MADV_DONTNEED) == -1 && errno == EINVAL, "a discard of no page");
    check(mprotect(at, PAGES * PAGE, 0x1000000) == -1, "mprotect of no kind");
    check(differing(at, 0, PAGES, 1) == 0, "all is there");
    check(munmap(at, PAGES * PAGE) == 0, "munmap");
}

/* A call that the kernel refuses, over a range with a hole, loses nothing: what is there still lies over frames, and is known to. */
static void refused_hole(void) {
    uint8_t *at = lent(PAGES);
    check(munmap(at + 100 * PAGE, 50 * PAGE) == 0, "munmap");
    check(mmap(at, PAGES * PAGE, PROT_READ, MAP_PRIVATE | MAP_FIXED, 9999, 0) == MAP_FAILED && errno == EBADF, "mmap of no file");
    check(differing(at, 0, 100, 1) == 0 && differing(at, 150, PAGES, 1) == 0, "all is there");
    check(madvise(at, 100 * PAGE, MADV_DONTNEED) == 0 && is_full_of(at, 100 * PAGE, 0), "a discard before the hole");
    check(madvise(at + 150 * PAGE, 100 * PAGE, MADV_DONTNEED) == 0 && is_full_of(at + 150 * PAGE, 100 * PAGE, 0),
          "and behind it");
    check(munmap(at, PAGES * PAGE) == 0, "munmap of all, with the hole");
}

/* Leaves no room above a range, so that the system maps what comes into a hole of the range. */
static void fill_above(const uint8_t *at) {
    for (size_t bytes = (size_t)1 << 30; bytes >= PAGE; bytes /= 2) {
        uint8_t *found;
        while ((found = mmap(NULL, bytes, PROT_NONE, MAP_PRIVATE | MAP_ANONYMOUS | MAP_NORESERVE, -1, 0)) != MAP_FAILED &&
               found > at) {
        }
        if (found != MAP_FAILED) munmap(found, bytes);
    }
}

/* A hole is left in a range, and all of it is unmapped later. What the library has mapped meanwhile isn't in the hole. */
static void late_hole(void) {
    uint8_t *at = lent(PAGES);
    fill_above(at);
    check(munmap(at + 100 * PAGE, HALF * PAGE) == 0, "munmap");
    uint8_t *other = offered(PAGES);
    check(wait_for_count("lent", PAGES - HALF + PAGES, SECONDS), "all pages of both ranges are lent");
    check(munmap(at, PAGES * PAGE) == 0, "munmap of all, with the hole");
    check(madvise(other, HALF * PAGE, MADV_DONTNEED) == 0 && is_full_of(other, HALF * PAGE, 0), "a discard in the other range");
    fill(other, HALF, 1);
    check(wait_for_count("lent", PAGES, SECONDS), "it is lent again");
    check(differing(other, 0, PAGES, 1) == 0, "all is there");
}

/* ---- where and when calls come ---- */

/* The limit of the address space is below what is used: the system refuses each mapping, and nothing is lost. */
static void limited(void) {
    struct rlimit before, low;
    uint8_t *at = lent(PAGES);
    getrlimit(RLIMIT_AS, &before);
    low = (struct rlimit){.rlim_cur = PAGES * PAGE, .rlim_max = before.rlim_max};
    setrlimit(RLIMIT_AS, &low);
    check(madvise(at, HALF * PAGE, MADV_DONTNEED) == 0 && is_full_of(at, HALF * PAGE, 0), "a discard");
    fill(at, HALF, 1);
    sleep(2); /* (by now they would be lent again) */
    check(differing(at, 0, PAGES, 1) == 0, "all is there");
    fill(at, PAGES, 30);
    setrlimit(RLIMIT_AS, &before);
    check(differing(at, 0, PAGES, 30) == 0, "all can be written");
}

/* KiB of this process that are locked. */
static long locked_kib(void) {
    char line[256];
    long kib = -1;
    FILE *file = fopen("/proc/self/status", "r");
    while (file && kib < 0 && fgets(line, sizeof line, file))
        if (sscanf(line, "VmLck: %ld", &kib) != 1) kib = -1;
    if (file) fclose(file);
    return kib;
}

/* Addresses within pages: mlock takes them, and means the whole pages; other calls refuse them, and change nothing. */
static void within_pages(void) {
    uint8_t *at = lent(PAGES);
    int status = 0;
    check(madvise(at + 1, PAGES * PAGE - 1, MADV_DOFORK) == -1 && errno == EINVAL, "advice on no page");
    pid_t child = fork();
    if (child == 0) _exit(mincore(at + HALF * PAGE, PAGE, &(unsigned char){0}) == 0 ? 1 : 0);
    check(waitpid(child, &status, 0) == child && status == 0, "a child doesn't have what it shouldn't");
    check(mlock(at + 100 * PAGE + 1, 2 * PAGE) == 0, "mlock");
    sleep(2);
    check(locked_kib() == 3 * PAGE / 1024 && library_count("lent") == PAGES - 3, "three pages are locked, and stay so");
    check(close_range(500, 400, 0) == -1 && errno == EINVAL, "no range of descriptors");
}

static uint8_t *handled;
static void write_some(int number) {
    (void)number;
    for (size_t page = 0; page < PAGES; page += 4) *(volatile uint8_t *)(handled + page * PAGE) = (uint8_t)(1 + page / 2 % 100);
}

/* A signal's handler writes to pages, with the bytes that they have, while its thread has them taken home. */
static void interrupted(void) {
    handled = lent(PAGES);
    signal(SIGALRM, write_some);
    for (size_t page = 0; page < PAGES; page += 16) {
        const struct itimerval once = {.it_value = {.tv_usec = 20 + (suseconds_t)page / 5}};
        setitimer(ITIMER_REAL, &once, NULL);
        check(mprotect(handled + page * PAGE, 16 * PAGE, PROT_READ | PROT_WRITE) == 0, "mprotect");
    }
    usleep(10000); /* (by now the last signal has come) */
    check(differing(handled, 0, PAGES, 1) == 0, "all is there");
}

static void *is_cancelled(void *at) {
    pthread_setcancelstate(PTHREAD_CANCEL_DISABLE, NULL);
    usleep(100000); /* (by now it has been asked to end) */
    pthread_setcancelstate(PTHREAD_CANCEL_ENABLE, NULL);
    mprotect(at, HALF * PAGE, PROT_READ | PROT_WRITE); /* (a call in which no thread ends) */
    return NULL;
}

/* A thread is to end while it makes a call: other threads' calls go on. */
static void cancelled(void) {
    pthread_t thread;
    uint8_t *at = lent(PAGES);
    if (pthread_create(&thread, NULL, is_cancelled, at) != 0) exit(2);
    pthread_cancel(thread);
    pthread_join(thread, NULL);
    alarm(SECONDS / 2);
    check(madvise(at + HALF * PAGE, PAGE, MADV_DONTNEED) == 0, "a discard");
    alarm(0);
    check(differing(at, 0, HALF, 1) == 0, "all is there");
}

/* Threads are to end while they read by O_DIRECT, from pipes that nobody writes to: their pages are lent again. */
static int empty[2];
static void *reads_for_ever(void *at) {
    if (read(empty[0], at, PAGE) != 0) exit(2);
    return NULL;
}

static void *reads_a_page(void *at) {
    if (read(empty[0], at, PAGE) != PAGE) exit(2);
    return NULL;
}

static void *reads_parts_for_ever(void *at) {
    const struct iovec parts[] = {{at, PAGE}, {(uint8_t *)at + 2 * PAGE, PAGE}};
    if (readv(empty[0], parts, 2) != 0) exit(2);
    return NULL;
}

static void cancelled_reads(void) {
    pthread_t threads[2];
    uint8_t *at = lent(PAGES);
    if (pipe2(empty, O_CLOEXEC) != 0 || fcntl(empty[0], F_SETFL, O_DIRECT) != 0) exit(2);
    if (pthread_create(&threads[0], NULL, reads_for_ever, at) != 0) exit(2);
    if (pthread_create(&threads[1], NULL, reads_parts_for_ever, at + 4 * PAGE) != 0) exit(2);
    usleep(200000); /* (by now they read) */
    for (size_t i = 0; i < 2; i++) {
        void *status = NULL;
        pthread_cancel(threads[i]);
        check(pthread_join(threads[i], &status) == 0 && status == PTHREAD_CANCELED, "a thread ends while it reads");
    }
    long lends = library_count("lends");
    fill(at, 8, 1);
    check(wait_for_count("lends", lends + 8, 10), "the pages that they read to are lent again");
    check(differing(at, 0, PAGES, 1) == 0, "all is there");
}

/* A signal's handler leaves such a read by a jump, and later the thread ends. */
static sigjmp_buf back;
static void jump(int number) { siglongjmp(back, number); }

static void *ends_after_jump(void *at) {
    if (sigsetjmp(back, 1) == 0) reads_for_ever(at);
    memset(alloca(PAGE), 0xa5, PAGE); /* (where the read's frame was is something else by now) */
    pthread_exit(at);
}

static void jumped(void) {
    pthread_t thread;
    void *status = NULL;
    uint8_t *at = lent(PAGES);
    signal(SIGUSR1, jump);
    if (pipe2(empty, O_CLOEXEC) != 0 || fcntl(empty[0], F_SETFL, O_DIRECT) != 0) exit(2);
    if (pthread_create(&thread, NULL, ends_after_jump, at) != 0) exit(2);
    usleep(200000); /* (by now it reads) */
    pthread_kill(thread, SIGUSR1);
    check(pthread_join(thread, &status) == 0 && status == at, "the thread ends as it wants to");
    long lends = library_count("lends");
    fill(at, 2, 1);
    check(wait_for_count("lends", lends + 2, 10), "the page that it read to is lent again");
    check(differing(at, 0, PAGES, 1) == 0, "all is there");
}

/* A thread that has the lock of stderr calls for memory near a window while a part of the window leaves it, which is said there. */
static atomic_bool has_stderr;
static void *leaves_meanwhile(void *at) {
    while (!atomic_load(&has_stderr)) usleep(1000);
    check(mprotect(at, HALF * PAGE, PROT_READ | PROT_WRITE) == 0, "mprotect");
    return NULL;
}

static void locked_stderr(void) {
    pthread_t thread;
    uint8_t *at = lent(PAGES);
    if (pthread_create(&thread, NULL, leaves_meanwhile, at) != 0) exit(2);
    flockfile(stderr);
    atomic_store(&has_stderr, true);
    usleep(200000); /* (by now it leaves) */
    alarm(SECONDS / 2);
    check(madvise(at + HALF * PAGE, PAGE, MADV_DONTNEED) == 0, "a discard");
    funlockfile(stderr);
    pthread_join(thread, NULL);
    alarm(0);
    check(differing(at, 0, HALF, 1) == 0, "all is there");
}

/* ---- arrays of buffers, and descriptors ---- */

static int with_direct(void);

/* Arrays of buffers that aren't there, or are too long: calls are refused as the system refuses them. */
static void bad_buffers(void) {
    uint8_t *at = lent(PAGES), *two = mmap(NULL, 2 * PAGE, PROT_READ | PROT_WRITE, MAP_PRIVATE | MAP_ANONYMOUS, -1, 0);
    volatile int fewer = -1;
    struct iovec *volatile nowhere = (struct iovec *)8, *edge = (struct iovec *)(void *)(two + PAGE) - 1;
    const int files[] = {with_direct(), open("/proc/self/exe", O_RDONLY | O_CLOEXEC)};
    if (files[0] < 0) return left_out("there is no O_DIRECT on /var/tmp");
    munmap(two + PAGE, PAGE);
    *edge = (struct iovec){at, PAGE};
    for (size_t i = 0; i < 2; i++) {
        check(readv(files[i], nowhere, 2) == -1 && errno == EFAULT, "there is no array");
        check(preadv(files[i], edge, 2, 0) == -1 && errno == EFAULT, "a part of the array isn't there");
        check(preadv2(files[i], nowhere, 1025, 0, 0) == -1 && errno == EINVAL, "too many buffers");
        check(writev(files[i], nowhere, fewer) == -1 && (errno == EINVAL || errno == EBADF), "fewer than no buffers");
        check(readv(files[i], nowhere, 0) == 0, "no buffers");
    }
    check(readv(-1, nowhere, 2) == -1 && errno == EBADF, "no file");
    const struct iovec good[] = {{at + PAGE, PAGE}, {at + 9 * PAGE, PAGE}, {NULL, 0}, {at, PAGE}};
    check(preadv(files[0], good, 4, 0) == 3 * PAGE && is_full_of(at, 2 * PAGE, 'd') && is_full_of(at + 9 * PAGE, PAGE, 'd'),
          "good ones are read to");
    check(differing(at, 2, 9, 1) == 0 && differing(at, 10, PAGES, 1) == 0, "all others are there");
}

/* (the C library has it from 2.36 on, and libpageshare-window.so always) */
ssize_t process_madvise(int, const struct iovec *, size_t, int, unsigned) __attribute__((weak));

/* The process gives up pages by a descriptor of itself, and by the number that stands for one. */
static void by_process(void) {
    uint8_t *at = lent(PAGES), *own = mmap(NULL, PAGE, PROT_READ | PROT_WRITE, MAP_PRIVATE | MAP_ANONYMOUS, -1, 0);
    const int selves[] = {(int)syscall(SYS_pidfd_open, getpid(), 0U), -10000};
    if (process_madvise == NULL || selves[0] < 0) return left_out("the system has no process_madvise");
    for (size_t i = 0; i < 2; i++) {
        uint8_t *from = at + i * 100 * PAGE;
        const struct iovec parts[] = {{from, 10 * PAGE}, {own, PAGE}, {from + 50 * PAGE, 20 * PAGE}, {from + 1, PAGE}};
        *own = 'o';
        ssize_t done = process_madvise(selves[i], parts, 3, MADV_DONTNEED, 0);
        if (i > 0 && done == -1 && errno == EBADF) continue; /* (an older system) */
        check(done == 31 * PAGE && *own == 0, "all is given up");
        check(is_full_of(from, 10 * PAGE, 0) && is_full_of(from + 50 * PAGE, 20 * PAGE, 0), "what is given up is zeros");
        check(process_madvise(selves[i], parts + 2, 2, MADV_DONTNEED, 0) == 20 * PAGE, "until one is refused");
        check(process_madvise(selves[i], parts + 3, 1, MADV_DONTNEED, 0) == -1 && errno == EINVAL, "one is refused");
        check(process_madvise(selves[i], parts, 2, MADV_DONTNEED, 1) == -1 && errno == EINVAL, "there are no such flags");
        check(differing(at, i * 100 + 10, i * 100 + 50, 1) == 0 && differing(at, i * 100 + 70, PAGES, 1) == 0, "all is there");
    }
    check(process_madvise(selves[0], (struct iovec *)8, 2, MADV_DONTNEED, 0) == -1 && errno == EFAULT, "there is no array");
}

/* Advice on another process concerns nothing here, though it is about the same addresses. */
static void by_another(void) {
    uint8_t *at = lent(PAGES);
    const struct iovec all = {at, PAGES * PAGE};
    pid_t child = fork();
    if (child == 0) pause(), _exit(0);
    int other = (int)syscall(SYS_pidfd_open, child, 0U);
    if (process_madvise == NULL || other < 0) left_out("the system has no process_madvise");
    else check(process_madvise(other, &all, 1, MADV_DONTNEED, 0) == -1, "no other process's pages are given up");
    kill(child, SIGKILL);
    waitpid(child, NULL, 0);
    check(differing(at, 0, PAGES, 1) == 0, "all is there");
}

/* Puts a file in the place of each descriptor from a number on. Returns how many were refused with EBUSY; `*taken`: how many weren't. */
static unsigned put_over(int file, int first, unsigned *taken) {
    unsigned busy = 0;
    DIR *folder = opendir("/proc/self/fd");
    for (const struct dirent *entry; folder != NULL && (entry = readdir(folder)) != NULL;) {
        int number = atoi(entry->d_name);
        if (number < first) continue;
        bool is_busy = dup2(file, number) == -1 && errno == EBUSY && dup3(file, number, O_CLOEXEC) == -1 && errno == EBUSY;
        busy += is_busy;
        *taken += !is_busy;
    }
    if (folder) closedir(folder);
    return busy;
}

/* A file in the place of a descriptor that the library has: there it isn't put, and a child puts it there. */
static void put_over_own(void) {
    enum { FIRST = 100 };
    unsigned taken = 0;
    int status = 0, null = open("/dev/null", O_RDWR | O_CLOEXEC);
    uint8_t *at = lent(PAGES);
    check(put_over(null, FIRST, &taken) >= 4 && taken == 0, "the library's descriptors stay");
    check(dup2(null, FIRST) == FIRST && dup3(null, FIRST + 1, O_CLOEXEC) == FIRST + 1, "others can be taken");
    check(dup2(null, null) == null && dup3(null, null, 0) == -1 && errno == EINVAL, "one in its own place");
    check(dup2(FIRST + 2, FIRST + 2) == -1 && errno == EBADF && dup2(FIRST + 2, FIRST) == -1 && errno == EBADF, "no descriptor");
    check(fcntl(FIRST, F_GETFD) == 0 && fcntl(FIRST + 1, F_GETFD) == FD_CLOEXEC, "one is closed by exec, and one isn't");
    pid_t child = fork();
    if (child == 0) _exit(put_over(null, FIRST + 2, &taken) == 0 && taken >= 4 ? 0 : 1);
    check(waitpid(child, &status, 0) == child && status == 0, "a child takes them");
    long lends = library_count("lends");
    fill(at, HALF, 1);
    check(wait_for_count("lends", lends + HALF, SECONDS), "pages are lent again");
    check(differing(at, 0, PAGES, 1) == 0, "all is there");
}

/* The monitor closes all that it doesn't know, where the library got its userfaultfd by the system call. */
static void closed_all(void) {
    enum { FIRST = 3, END = 500 };
    uint8_t *at = lent(PAGES);
    for (int number = FIRST; number < END; number++) close(number);
    long lends = library_count("lends");
    fill(at, HALF, 1);
    check(wait_for_count("lends", lends + HALF, SECONDS), "pages are lent again");
    check(differing(at, 0, PAGES, 1) == 0, "all is there");
}

/* ---- lines on standard error, and room that comes late ---- */

/* The system has no room for the host's frames at first. */
static void late_room(void) {
    struct rlimit before, low;
    long pages = 0;
    FILE *file = fopen("/proc/self/statm", "r");
    if (!file || fscanf(file, "%ld", &pages) != 1) exit(2);
    fclose(file);
    getrlimit(RLIMIT_AS, &before);
    low = (struct rlimit){.rlim_cur = (rlim_t)pages * PAGE + (256u << 20), .rlim_max = before.rlim_max};
    setrlimit(RLIMIT_AS, &low);
    uint8_t *at = offered(PAGES);
    check(wait_for_count("looks", 20, SECONDS), "there are looks");
    check(library_count("connected") == 1 && library_count("lent") == 0, "nothing is lent without the host's frames");
    setrlimit(RLIMIT_AS, &before);
    check(wait_for_count("lent", PAGES, 10), "all is lent when there is room");
    check(differing(at, 0, PAGES, 1) == 0, "all is there");
}

/* How often a text is in what was written to a file. */
static unsigned times_said(int file, const char *what) {
    static char text[1 << 16];
    unsigned times = 0;
    ssize_t got = pread(file, text, sizeof text - 1, 0);
    text[got > 0 ? got : 0] = 0;
    for (const char *at = text; (at = strstr(at, what)) != NULL; at++) times++;
    if (times != 1) printf("said: %s\n", text);
    return times;
}

/* Looks fail now and then for the same cause: it is said once. */
static void said_once(void) {
    uint8_t *at = lent(PAGES);
    int said = memfd_create("said", MFD_CLOEXEC);
    if (dup2(said, STDERR_FILENO) < 0) exit(2);
    for (unsigned i = 0; i < 4; i++) {
        if (by_instruction(SYS_mlock, at, PAGE) != 0) return left_out("no memory can be locked"); /* (past the library) */
        usleep(600000);
        syscall(SYS_munlock, at, PAGE);
        usleep(600000);
    }
    check(times_said(said, "pageshare: a look: ") == 1, "it is said once");
    check(differing(at, 0, PAGES, 1) == 0, "all is there");
}

/* Of checks/host/count_memory.c, where that is preloaded: the system has no memory left to promise. */
extern int memory_is_promised __attribute__((weak));

/* As `limited`, where the system promises no more memory than it has: what it refuses to copy has lost its place by then. */
static void counted(void) {
    if (&memory_is_promised == NULL) return left_out("count_memory.c isn't preloaded");
    uint8_t *at = lent(PAGES);
    memory_is_promised = 1;
    check(madvise(at, HALF * PAGE, MADV_DONTNEED) == 0 && is_full_of(at, HALF * PAGE, 0), "a discard");
    fill(at, HALF, 1);
    sleep(2); /* (by now they would be lent again) */
    check(differing(at, 0, PAGES, 1) == 0, "all is there");
    memory_is_promised = 0;
    fill(at, PAGES, 30);
    check(differing(at, 0, PAGES, 30) == 0, "all can be written");
}

/* ---- forks ---- */

static atomic_bool over;
static void *offer_always(void *unused) {
    uint8_t *at = mmap(NULL, 64 * PAGE, PROT_READ | PROT_WRITE, MAP_PRIVATE | MAP_ANONYMOUS, -1, 0);
    while (!atomic_load(&over)) {
        madvise(at, 64 * PAGE, MADV_MERGEABLE);
        madvise(at, PAGE, MADV_DONTNEED);
    }
    return unused;
}

/* Children of forks make their calls, while threads of the parent are in theirs. */
static void children(void) {
    pthread_t threads[2];
    unsigned hung = 0;
    uint8_t *at = lent(PAGES);
    for (size_t i = 0; i < 2; i++)
        if (pthread_create(&threads[i], NULL, offer_always, NULL) != 0) exit(2);
    for (int i = 0; i < 300; i++) {
        int status = 0;
        pid_t child = fork();
        if (child == 0) {
            alarm(5);
            uint8_t *own = mmap(NULL, 64 * PAGE, PROT_READ | PROT_WRITE, MAP_PRIVATE | MAP_ANONYMOUS, -1, 0);
            madvise(own, 64 * PAGE, MADV_MERGEABLE);
            madvise(own, 64 * PAGE, MADV_DONTNEED);
            munmap(own, 64 * PAGE);
            _exit(0);
        }
        if (child > 0 && waitpid(child, &status, 0) == child) hung += WIFSIGNALED(status);
        if (hung > 2) break;
    }
    atomic_store(&over, true);
    for (size_t i = 0; i < 2; i++) pthread_join(threads[i], NULL);
    check(hung == 0, "no child hangs");
    check(differing(at, 0, PAGES, 1) == 0, "all is there");
}

static void *write_always(void *of) {
    uint8_t *at = of;
    for (unsigned i = 0; !atomic_load(&over); i = (i + 1) % 8) {
        fill(at, PAGES / 8 * (i + 1), 1);
        usleep(60000);
    }
    return NULL;
}

static size_t mapped(uint8_t *at) {
    size_t count = 0;
    unsigned char there;
    for (size_t page = 0; page < PAGES; page++) count += mincore(at + page * PAGE, PAGE, &there) == 0;
    return count;
}

/* Children are forked all the time while pages are lent: none has a page of a range that no child is to have. */
static void forked(void) {
    enum { FORKS = 6000 };
    pthread_t thread;
    size_t found = 0;
    uint8_t *at = lent(PAGES);
    long lends = library_count("lends");
    if (pthread_create(&thread, NULL, write_always, at) != 0) exit(2);
    for (long begin = now_us(), i = 0; i < FORKS && now_us() - begin < 15000000; i++) {
        int status = 0;
        pid_t child = fork();
        if (child == 0) _exit(mapped(at) > 0);
        if (child > 0 && waitpid(child, &status, 0) == child) found += status != 0;
    }
    atomic_store(&over, true);
    pthread_join(thread, NULL);
    printf("  %ld lends meanwhile, %zu children had pages\n", library_count("lends") - lends, found);
    check(found == 0, "no child has a page");
    check(differing(at, 0, PAGES, 1) == 0, "all is there");
}

static int child_waits(uint8_t *at, int go) {
    char byte;
    if (read(go, &byte, 1) != 1) return 2;
    return differing(at, 0, PAGES, 1) != 0;
}

/* The host stands still between a question and its answer; meanwhile children are to have the range. Who runs this stops the host after
 * the line "stop", and lets it go on after "go", and answers each by a line. */
static void inherited(void) {
    int ends[2], status = 0;
    uint8_t *at = offered(PAGES);
    check(wait_for_count("windows", 1, SECONDS), "there is a window");
    puts("stop"), fflush(stdout), getchar();
    sleep(2);
    check(madvise(at, PAGES * PAGE, MADV_DOFORK) == 0, "MADV_DOFORK");
    puts("go"), fflush(stdout), getchar();
    sleep(2);
    check(library_count("lent") == 0, "nothing is lent of what a child is to have");
    if (pipe(ends) != 0) exit(2);
    pid_t child = fork();
    if (child == 0) _exit(child_waits(at, ends[0]));
    fill(at, PAGES, 120);
    sleep(2);
    check(write(ends[1], "x", 1) == 1 && waitpid(child, &status, 0) == child && status == 0, "the child has what was there");
}

/* ---- devices ---- */

static int with_direct(void) {
    char name[] = "/var/tmp/parts-XXXXXX";
    int file = mkstemp(name);
    uint8_t page[PAGE];
    memset(page, 'd', PAGE);
    for (int i = 0; i < 16; i++)
        if (write(file, page, PAGE) != PAGE) exit(2);
    fsync(file), close(file);
    file = open(name, O_RDONLY | O_DIRECT | O_CLOEXEC);
    unlink(name);
    return file;
}

/* What is done to a page that a device has pinned, before the device writes to it: none of it may lose what the device writes. */
static void do_to_pinned(const char *way, uint8_t *at, uint8_t *page) {
    struct vfio_iommu_type1_dma_map map = {.argsz = sizeof map, .vaddr = (uintptr_t)at, .size = PAGES * PAGE};
    int file = open("/dev/null", O_RDWR);
    if (!strcmp(way, "mprotect")) mprotect(page, PAGE, PROT_READ | PROT_WRITE);
    if (!strcmp(way, "mlock")) mlock(page, PAGE);
    if (!strcmp(way, "mlockall")) mlockall(MCL_CURRENT);
    if (!strcmp(way, "unmergeable")) madvise(at, PAGES * PAGE, MADV_UNMERGEABLE);
    if (!strcmp(way, "dofork")) madvise(at, PAGES * PAGE, MADV_DOFORK);
    if (!strcmp(way, "dofork-part")) madvise(page, PAGE, MADV_DOFORK);
    if (!strcmp(way, "dma")) ioctl(file, VFIO_IOMMU_MAP_DMA, &map);
    if (!strcmp(way, "look")) sleep(2);
    close(file);
}

static void pinned_by(const char *way, bool is_seen) {
    struct ring ring;
    int ends[2];
    static uint8_t data[PAGE];
    uint8_t *at = lent(PAGES), *page = at + 300 * PAGE;
    if (!ring_make(&ring) || pipe(ends) != 0) return left_out("there is no io_uring");
    if (!ring_pin(&ring, page, PAGE) || !ring_begin_read(&ring, ends[0], page, PAGE, -1))
        return left_out("io_uring pins no page");
    if (is_seen) sleep(1);
    do_to_pinned(way, at, page);
    memset(data, 'D', PAGE);
    check(write(ends[1], data, PAGE) == PAGE && ring_end_read(&ring) == PAGE, "the device has read");
    check(is_full_of(page, PAGE, 'D'), "what the device has read is there");
    check(differing(at, 0, 300, 1) == 0 && differing(at, 301, PAGES, 1) == 0, "the others are there");
    check(ring_unpin(&ring), "the page is let go");
    munlockall();
    check(madvise(page, PAGE, MADV_DONTNEED) == 0 && is_full_of(page, PAGE, 0), "a discard shows zeros");
}

/* Pages that were written and are equal again are pinned just before they would be lent again. */
static void noticed_late(void) {
    struct ring ring;
    int ends[2];
    static uint8_t data[PAGE];
    uint8_t *at = lent(PAGES);
    if (!ring_make(&ring) || pipe(ends) != 0) return left_out("there is no io_uring");
    for (unsigned i = 0; i < 5; i++) {
        uint8_t *page = at + (100 + i) * PAGE;
        memset(page, 'y', PAGE);
        usleep(300000);
        memset(page, (int)(1 + (100 + i) / 2), PAGE);
        usleep(20000 * i);
        if (!ring_pin(&ring, page, PAGE) || !ring_begin_read(&ring, ends[0], page, PAGE, -1))
            return left_out("io_uring pins no page");
        usleep(400000);
        memset(data, 'D', PAGE);
        check(write(ends[1], data, PAGE) == PAGE && ring_end_read(&ring) == PAGE, "the device has read");
        check(is_full_of(page, PAGE, 'D'), "what the device has read is there");
        ring_unpin(&ring);
    }
}

/* Waits for a request that a thread of the C library makes. Returns how many bytes it has read, or -1. */
static ssize_t end_of_request(struct aiocb *request) {
    for (unsigned i = 0; i < SECONDS * 100 && aio_error(request) == EINPROGRESS; i++) usleep(10000);
    return aio_error(request) == 0 ? aio_return(request) : -1;
}

/* Threads of the C library read, by calls that aren't seen: with a file by O_DIRECT they may pin pages from then on. */
static void by_requests(bool are_many) {
    enum { PIN_PAGES = 2 };
    uint8_t *at = lent(PAGES);
    int file = with_direct(), plain = open("/proc/self/exe", O_RDONLY | O_CLOEXEC);
    struct aiocb harmless = {.aio_fildes = plain, .aio_buf = at + 20 * PAGE, .aio_nbytes = PAGE, .aio_lio_opcode = LIO_READ};
    struct aiocb pinning = {.aio_fildes = file, .aio_buf = at + 10 * PAGE, .aio_nbytes = PAGE, .aio_lio_opcode = LIO_READ};
    struct aiocb *all[] = {NULL, &pinning, NULL};
    if (file < 0) return left_out("there is no O_DIRECT on /var/tmp");
    check(aio_read(&harmless) == 0 && end_of_request(&harmless) == PAGE, "a request without O_DIRECT");
    sleep(1);
    check(library_count("devices") < PIN_PAGES, "which pins nothing");
    int status = are_many ? lio_listio(LIO_WAIT, all, 3, NULL) : aio_read(&pinning);
    check(status == 0 && end_of_request(&pinning) == PAGE && is_full_of(at + 10 * PAGE, PAGE, 'd'), "a request with it");
    check(wait_for_count("devices", PIN_PAGES, 5), "which may pin pages");
    check(differing(at, 0, 10, 1) == 0 && differing(at, 21, PAGES, 1) == 0, "all others are there");
}

static void by_request(void) { by_requests(false); }
static void by_list(void) { by_requests(true); }

static int direct_file = -1;
static void *read_always(void *aside) {
    while (!atomic_load(&over))
        if (pread(direct_file, aside, PAGE, 0) != PAGE) exit(2);
    return NULL;
}

/* With a file by O_DIRECT, pages that were lent and written are lent again, also while it is read all the time. */
static void direct(void) {
    pthread_t thread;
    uint8_t *at = offered(PAGES + 16);
    direct_file = with_direct();
    if (direct_file < 0) return left_out("there is no O_DIRECT on /var/tmp");
    if (pthread_create(&thread, NULL, read_always, at + PAGES * PAGE) != 0) exit(2);
    for (unsigned i = 0; i < 3; i++) {
        check(wait_for_count("lent", PAGES, SECONDS), "all pages are lent again but for those that are read to");
        check(differing(at, 0, PAGES, 1 + i * 20) == 0, "all is there");
        fill(at, PAGES, 21 + i * 20);
        usleep(500000);
    }
    atomic_store(&over, true);
    pthread_join(thread, NULL);
    check(is_full_of(at + PAGES * PAGE, PAGE, 'd'), "what was read is there");
}

/* A file of a file system that reads past the page cache, though it wasn't opened with O_DIRECT (slow_files.c). */
static int open_uncached(void) {
    const char *path = getenv("SLOW_FILE");
    int file = path ? open(path, O_RDONLY | O_CLOEXEC) : -1;
    if (file < 0) left_out("there is no such file system");
    return file;
}

enum { READ_FIRST = 128, READ_PAGES = 64 };

static void *reads_uncached(void *at) {
    const struct iovec parts[] = {{(uint8_t *)at + READ_FIRST * PAGE, PAGE},
                                  {(uint8_t *)at + (READ_FIRST + 1) * PAGE, (READ_PAGES - 1) * PAGE}};
    if (preadv(direct_file, parts, 2, 0) != READ_PAGES * PAGE) exit(2);
    return NULL;
}

/* What such a read brings is there, though its pages were copies that leave meanwhile, or that a look would lend again. */
static void uncached_by(bool do_leave) {
    pthread_t thread;
    if ((direct_file = open_uncached()) < 0) return;
    uint8_t *at = lent(PAGES), *to = at + READ_FIRST * PAGE;
    check(wait_for_count("devices", 1, SECONDS), "the file is seen");
    fill(at, PAGES, 21);
    if (pthread_create(&thread, NULL, reads_uncached, at) != 0) exit(2);
    usleep(200000); /* (by now it reads) */
    if (do_leave) mprotect(to, READ_PAGES * PAGE, PROT_READ | PROT_WRITE);
    pthread_join(thread, NULL);
    usleep(300000);
    check(is_full_of(to, READ_PAGES * PAGE, 'D'), "what was read is there");
    check(differing(at, 0, READ_FIRST, 21) == 0 && differing(at, READ_FIRST + READ_PAGES, PAGES, 21) == 0, "all else is there");
    fill(at, READ_FIRST, 41);
    check(wait_for_count("lent", READ_FIRST, SECONDS), "pages are lent again");
}
static void uncached_leave(void) { uncached_by(true); }
static void uncached_look(void) { uncached_by(false); }

/* With an io_uring nobody sees which pages such reads are about. */
static void uncached_ring(void) {
    struct ring ring;
    uint8_t *at = lent(PAGES);
    if (!ring_make(&ring)) return left_out("there is no io_uring");
    if (open_uncached() < 0) return;
    check(wait_for_count("devices", 3, SECONDS), "lending ends");
    for (unsigned i = 0; i < SECONDS * 50 && library_count("lent") != 0; i++) usleep(20000);
    check(library_count("lent") == 0 && differing(at, 0, PAGES, 1) == 0, "and all is there");
}

/* Nor if threads of the C library make them. */
static void uncached_request(void) {
    int file = open_uncached();
    if (file < 0) return;
    uint8_t *at = lent(PAGES);
    struct aiocb request = {.aio_fildes = file, .aio_buf = at + 10 * PAGE, .aio_nbytes = PAGE};
    check(aio_read(&request) == 0, "a request");
    check(end_of_request(&request) == PAGE && is_full_of(at + 10 * PAGE, PAGE, 'D'), "what was read is there");
    check(wait_for_count("devices", 3, SECONDS), "lending ends");
    check(differing(at, 0, 10, 1) == 0 && differing(at, 11, PAGES, 1) == 0, "and all else is there");
}

/* Sets O_DIRECT of the file of frames that the library has, behind its back. Returns whether it is there. */
static bool set_own_flags(void) {
    char path[64], target[64] = "";
    for (int file = 0; file < 65536; file++) {
        snprintf(path, sizeof path, "/proc/self/fd/%d", file);
        ssize_t length = readlink(path, target, sizeof target - 1);
        target[length > 0 ? length : 0] = 0;
        if (strncmp(target, "/memfd:pageshare-frames", 23) == 0) return by_instruction(SYS_fcntl, file, F_SETFL, O_DIRECT) == 0;
    }
    return false;
}

/* With an io_uring: the library's own file of frames is none that a device could read, whatever its flags. */
static void own_flags(void) {
    struct ring ring;
    if (!ring_make(&ring)) return left_out("there is no io_uring");
    uint8_t *at = lent(PAGES);
    check(set_own_flags(), "the file of frames is found, and its flags are set");
    for (unsigned i = 1; i < 4; i++) {
        fill(at, PAGES, 1 + i * 20);
        usleep(500000);
        check(wait_for_count("lent", PAGES, SECONDS), "all pages are lent again");
        check(differing(at, 0, PAGES, 1 + i * 20) == 0, "all is there");
    }
    check(library_count("devices") == 0, "no device is seen");
}

/* A thread reads by O_DIRECT since before there were windows: nothing is lent until that has ended. Who runs this stops the host after the
 * line "stop", and lets it go on after "go", and answers each by a line. */
static void early_read(void) {
    pthread_t thread;
    if (pipe2(empty, O_CLOEXEC) != 0 || fcntl(empty[0], F_SETFL, O_DIRECT) != 0) exit(2);
    puts("stop"), fflush(stdout), getchar();
    uint8_t *at = offered(PAGES);
    if (pthread_create(&thread, NULL, reads_a_page, at) != 0) exit(2);
    usleep(200000); /* (by now it reads) */
    puts("go"), fflush(stdout), getchar();
    check(wait_for_count("windows", 1, SECONDS), "there is a window");
    sleep(3);
    check(library_count("lent") == 0, "nothing is lent meanwhile");
    check(write(empty[1], at, PAGE) == PAGE && pthread_join(thread, NULL) == 0, "what it reads comes");
    check(wait_for_count("lent", PAGES, SECONDS), "all is lent");
    check(differing(at, 0, PAGES, 1) == 0, "all is there");
}

/* ---- locks, mappings, and an end ---- */

/* Pages that had left are locked: the others go on being lent. */
static void locked(void) {
    uint8_t *at = lent(PAGES), *own = mmap(NULL, PAGE, PROT_READ | PROT_WRITE, MAP_PRIVATE | MAP_ANONYMOUS, -1, 0);
    check(mprotect(at, PAGE, PROT_READ | PROT_WRITE) == 0 && mlock(at, PAGE) == 0, "a page that had left is locked");
    check(mlock(own, PAGE) == 0, "so is one that was never offered");
    sleep(2);
    check(library_count("lent") >= PAGES - 2, "the others are lent still");
    fill(at + HALF * PAGE, HALF, 1);
    usleep(300000);
    check(wait_for_count("lent", PAGES - 2, 10), "and lent again after they were written");
}

static size_t mappings(void) {
    FILE *file = fopen("/proc/self/maps", "r");
    size_t count = 0;
    for (int c; file && (c = fgetc(file)) != EOF;) count += c == '\n';
    if (file) fclose(file);
    return count;
}

static void fill_apart(uint8_t *at, size_t pages) {
    for (size_t i = 0; i < pages; i++) {
        uint64_t *words = (uint64_t *)(void *)(at + i * PAGE);
        for (size_t w = 0; w < PAGE / 8; w++) words[w] = i % 2 ? 1000000 + i : 7000 + i * 7919 % pages / 4;
    }
}

/* The processor time of a look, in ms, since there were so many looks, which had taken so long. */
static double look_ms(long looks, long spent_ns) {
    return (double)(library_count("processor_ns") - spent_ns) / (double)(library_count("looks") - looks) / 1e6;
}

/* Locks memory that isn't offered, and gives up pages that are. Returns how long one of these calls took at most, in us. */
static long lock_beside(uint8_t *at, uint8_t *own, size_t first) {
    enum { LOCKS = 80 };
    long longest = 0;
    for (size_t i = first; i < first + LOCKS; i++) {
        mlock(own, (1 + i % 32) * PAGE);
        usleep(50000);
        long begin = now_us();
        madvise(at + (i * 2 + 1) * PAGE, PAGE, MADV_DONTNEED);
        if (now_us() - begin > longest) longest = now_us() - begin;
        munlock(own, 64 * PAGE);
    }
    return longest;
}

/* Whether a look takes no longer while the monitor locks memory of its own. */
static bool looks_are_alike(uint8_t *at, uint8_t *own, size_t first) {
    long looks = library_count("looks"), spent = library_count("processor_ns");
    sleep(4);
    double quiet = look_ms(looks, spent);
    looks = library_count("looks"), spent = library_count("processor_ns");
    long longest = lock_beside(at, own, first);
    double locks = look_ms(looks, spent);
    printf("  a look takes %.1f ms, with locks %.1f ms; the longest madvise %.1f ms\n", quiet, locks, (double)longest / 1e3);
    check(longest < 200000, "no call waits long");
    return locks < 2 * quiet + 5;
}

/* Many mappings: they are counted as they are, and what a look costs doesn't depend on locks of the monitor's own. */
static void many_mappings(void) {
    enum { MANY = 20000, TURNS = 3 /* (on a busy computer a look may take longer in one of them) */ };
    size_t before = mappings();
    uint8_t *at = mmap(NULL, MANY * PAGE, PROT_READ | PROT_WRITE, MAP_PRIVATE | MAP_ANONYMOUS, -1, 0);
    uint8_t *own = mmap(NULL, 64 * PAGE, PROT_READ | PROT_WRITE, MAP_PRIVATE | MAP_ANONYMOUS, -1, 0);
    bool are_alike = false;
    fill_apart(at, MANY);
    madvise(at, MANY * PAGE, MADV_MERGEABLE);
    madvise(at, MANY * PAGE, MADV_DONTFORK);
    check(wait_for_count("lent", MANY / 2, 2 * SECONDS), "every second page is lent");
    sleep(2);
    long counted = library_count("mappings"), there = (long)(mappings() - before);
    printf("  %ld mappings are counted, and %ld are there\n", counted, there);
    check(counted > there - there / 20 - 20 && counted < there + there / 20 + 20, "mappings are counted as there are");
    for (size_t turn = 0; turn < TURNS && !are_alike; turn++) are_alike = looks_are_alike(at, own, turn * 100);
    check(are_alike, "a look takes no longer when the monitor locks memory of its own");
}

/* Lending ends where the system has no memory for it: nothing is lent any more. */
static void ended(void) {
    struct rlimit old, all;
    long size = 0;
    uint8_t *at = lent(PAGES);
    FILE *file = fopen("/proc/self/statm", "r");
    if (!file || fscanf(file, "%ld", &size) != 1) exit(2);
    fclose(file);
    getrlimit(RLIMIT_AS, &old);
    all = (struct rlimit){(rlim_t)size * PAGE, old.rlim_max};
    setrlimit(RLIMIT_AS, &all);
    struct vfio_iommu_type1_dma_map map = {.argsz = sizeof map, .vaddr = (uintptr_t)at, .size = PAGES * PAGE};
    int null = open("/dev/null", O_RDWR);
    int status = ioctl(null, VFIO_IOMMU_MAP_DMA, &map), cause = errno;
    setrlimit(RLIMIT_AS, &old);
    /* (on a busy computer the looking thread is late with its counts) */
    for (unsigned i = 0; i < SECONDS * 50 && cause == ENOTTY && library_count("lent") != 0; i++) usleep(20000);
    usleep(300000);
    long lends = library_count("lends");
    check(status == -1 && (cause != ENOTTY || library_count("lent") == 0),
          "the call goes to the system only when no frame is shown");
    check(differing(at, 0, PAGES, 1) == 0, "all is there");
    fill(at, PAGES, 50);
    sleep(2);
    check(library_count("lends") == lends, "nothing is lent after lending has ended");
    check(differing(at, 0, PAGES, 50) == 0, "all is there");
    check(ioctl(null, VFIO_IOMMU_MAP_DMA, &map) == -1 && errno == ENOTTY, "later the call goes to the system");
}

/* A device that can't be opened ends nothing. */
static void not_opened(void) {
    uint8_t *at = lent(PAGES);
    check(open("/dev/vfio/not-there", O_RDWR) == -1 && errno == ENOENT, "there is no such device");
    check(openat(AT_FDCWD, "/dev/vhost-vdpa-not-there", O_RDWR) == -1, "nor such one");
    fill(at, HALF, 1);
    sleep(1);
    check(wait_for_count("lent", PAGES, 10), "all pages are lent still");
}

/* ---- */

/* ---- guests that start later ---- */

static void number(uint8_t *page, uint64_t number) { memcpy(page + 100, &number, sizeof number); }

/* Pages of which each content, a number, is so many times there. */
static uint8_t *numbered(size_t pages, size_t times) {
    uint8_t *at = mmap(NULL, pages * PAGE, PROT_READ | PROT_WRITE, MAP_PRIVATE | MAP_ANONYMOUS, -1, 0);
    if (at == MAP_FAILED) perror("mmap"), exit(2);
    for (size_t i = 0; i < pages; i++) number(at + i * PAGE, 1000 + i / times);
    madvise(at, pages * PAGE, MADV_MERGEABLE);
    madvise(at, pages * PAGE, MADV_DONTFORK);
    return at;
}

/* All pages come in pairs and are lent; who runs this says when to end. */
static void pairs(void) {
    numbered(PAGES, 2);
    check(wait_for_count("lent", PAGES, SECONDS), "all pages are lent");
    puts("lent");
    fflush(stdout);
    getchar();
}

/* Pages that are alike in nothing but that another process has lent each of them, long ago. */
static void newcomer(void) {
    const long least = HALF * 95 / 100;
    numbered(HALF, 1);
    check(wait_for_count("lent", least, SECONDS), "95 of 100 pages are lent");
    printf("  %ld of %d pages are lent\n", library_count("lent"), HALF);
}

/* Other pages get new contents all the time, each of which is there twice, so that frames come into use. */
static void *renumbers_always(void *of) {
    uint8_t *at = of;
    for (uint64_t i = 0; !atomic_load(&over); i++) {
        number(at + i % (4 * PAGES) * PAGE, 1000000 + i / 2);
        if (i % 128 == 127) usleep(20000);
    }
    return NULL;
}

/* A pipe has pages of a window, as a device that reads them for a file, when their slots are released: it reads what they contained. */
static void read_late(void) {
    enum { TIMES = 40, APART = 4 };
    pthread_t thread;
    uint8_t read_there[PAGE];
    unsigned others = 0;
    uint8_t *at = numbered(TIMES * APART, 2);
    check(wait_for_count("lent", TIMES * APART, SECONDS), "all pages are lent");
    uint8_t *more = numbered(4 * PAGES, 2);
    if (pthread_create(&thread, NULL, renumbers_always, more) != 0) exit(2);
    sleep(2);
    for (size_t i = 0; i < TIMES; i++) {
        int ends[2];
        uint8_t *page = at + i * APART * PAGE;
        const struct iovec its = {page, PAGE};
        if (pipe2(ends, O_CLOEXEC) != 0 || vmsplice(ends[1], &its, 1, 0) != PAGE) exit(2);
        check(mprotect(page, 2 * PAGE, PROT_READ | PROT_WRITE) == 0, "mprotect"); /* (both pages that have its frame) */
        usleep(250000);
        if (read(ends[0], read_there, PAGE) != PAGE) exit(2);
        others += memcmp(read_there, page, PAGE) != 0;
        close(ends[0]);
        close(ends[1]);
    }
    atomic_store(&over, true);
    pthread_join(thread, NULL);
    printf("  %ld lends; %u of %d reads found other bytes\n", library_count("lends"), others, TIMES);
    check(others == 0, "what is read late is what was there");
}

static const struct way {
    const char *name;
    void (*run)(void);
} ways[] = {
    {"kept", kept},
    {"foreign", foreign},
    {"hole", hole},
    {"used-later", used_later},
    {"moved", moved},
    {"advised", advised},
    {"refused", refused},
    {"children", children},
    {"forked", forked},
    {"inherited", inherited},
    {"late", noticed_late},
    {"direct", direct},
    {"early-read", early_read},
    {"locked", locked},
    {"mappings", many_mappings},
    {"ended", ended},
    {"not-opened", not_opened},
    {"own-flags", own_flags},
    {"uncached-leave", uncached_leave},
    {"uncached-look", uncached_look},
    {"uncached-ring", uncached_ring},
    {"uncached-request", uncached_request},
    {"pairs", pairs},
    {"newcomer", newcomer},
    {"read-late", read_late},
    {"refused-hole", refused_hole},
    {"late-hole", late_hole},
    {"limited", limited},
    {"within-pages", within_pages},
    {"interrupted", interrupted},
    {"cancelled", cancelled},
    {"cancelled-reads", cancelled_reads},
    {"jumped", jumped},
    {"locked-stderr", locked_stderr},
    {"bad-buffers", bad_buffers},
    {"by-process", by_process},
    {"by-another", by_another},
    {"put-over", put_over_own},
    {"closed-all", closed_all},
    {"late-room", late_room},
    {"said-once", said_once},
    {"counted", counted},
    {"request", by_request},
    {"requests", by_list},
};

int main(int count, char **words) {
    const char *name = count > 1 ? words[1] : "";
    bool is_known = strncmp(name, "pinned-", 7) == 0;
    library_count("lent"); /* (so that memory for it is there) */
    if (is_known) pinned_by(name + 7, true);
    if (strncmp(name, "at-once-", 8) == 0) is_known = true, pinned_by(name + 8, false);
    for (size_t i = 0; i < sizeof ways / sizeof ways[0]; i++) {
        if (strcmp(name, ways[i].name) != 0) continue;
        is_known = true;
        ways[i].run();
    }
    if (!is_known) return fputs("parts: no such way\n", stderr), 2;
    printf("%s: %s\n", name, wrong > 0 ? "WRONG" : is_left_out ? "left out" : "good");
    return wrong > 0 ? 1 : is_left_out ? LEFT_OUT : 0;
}
