/*
 * A stand-in for a monitor, of which some calls take long: waits range|end|guard|disk|locks|orphan. Others mustn't wait for them.
 *   range   a range becomes a window while reading the process's mappings takes a second each time;
 *   end     all pages get memory of their own before the monitor watches for missing pages by a userfaultfd;
 *   guard   and where they are before it guards them against writes by one;
 *   locks   memory elsewhere is locked and unlocked, and reading the mappings takes long: it is read within a tenth of the thread's share;
 *   disk    threads read by O_DIRECT with many buffers each, and idle pages between these are lent.
 *   orphan  a child makes a call that is shown (PAGESHARE_FILTER=1), and the process ends before it has answered.
 * Prints figures, and what isn't so. Status 0 if all is so, 77 if it is left out, else 1.
 */
#define _GNU_SOURCE
#include "instruction.h"
#include "offered.h"
#include <errno.h>
#include <fcntl.h>
#include <linux/aio_abi.h>
#include <linux/userfaultfd.h>
#include <poll.h>
#include <pthread.h>
#include <stdatomic.h>
#include <sys/ioctl.h>
#include <sys/prctl.h>
#include <sys/syscall.h>
#include <sys/uio.h>
#include <sys/wait.h>
#include <time.h>

enum { PAGE = 4096, LEFT_OUT = 77 };

static atomic_bool is_slow, is_over;
static atomic_int slow_reads;
static atomic_int dear_ms; /* processor time that it takes beside that */

static double clock_of(clockid_t clock) {
    struct timespec time;
    clock_gettime(clock, &time);
    return (double)time.tv_sec + (double)time.tv_nsec / 1e9;
}

/* As the C library's, but that a list of mappings takes long to read. */
__attribute__((visibility("default"))) int open(const char *path, int flags, ...) {
    va_list more;
    va_start(more, flags);
    mode_t mode = (flags & (O_CREAT | O_TMPFILE)) != 0 ? va_arg(more, mode_t) : 0;
    va_end(more);
    if (atomic_load(&is_slow) && strcmp(path, "/proc/self/smaps") == 0) {
        atomic_fetch_add(&slow_reads, 1);
        double end = clock_of(CLOCK_THREAD_CPUTIME_ID) + (double)atomic_load(&dear_ms) / 1000;
        while (clock_of(CLOCK_THREAD_CPUTIME_ID) < end) {
        }
        if (atomic_load(&dear_ms) == 0) sleep(1);
    }
    return (int)syscall(SYS_openat, AT_FDCWD, path, flags, mode);
}

static atomic_bool is_asking_slow;

/* As the C library's, but that it takes long for the thread that answers calls, which finds out whose one is. */
__attribute__((visibility("default"))) pid_t getpid(void) {
    char name[16] = "";
    bool answers = atomic_load(&is_asking_slow) && prctl(PR_GET_NAME, name) == 0 && strcmp(name, "pageshare-calls") == 0;
    if (answers) usleep(500000);
    return (pid_t)by_instruction(SYS_getpid);
}

static double now(void) { return clock_of(CLOCK_MONOTONIC); }

static uint8_t *make_memory(size_t pages) {
    void *at = mmap(NULL, pages * PAGE, PROT_READ | PROT_WRITE, MAP_PRIVATE | MAP_ANONYMOUS, -1, 0);
    if (at == MAP_FAILED) perror("mmap"), exit(1);
    return at;
}

static void offer(uint8_t *at, size_t pages) {
    if (madvise(at, pages * PAGE, MADV_MERGEABLE) != 0 || madvise(at, pages * PAGE, MADV_DONTFORK) != 0)
        perror("madvise"), exit(1);
}

/* A page's content; pages of one number are alike. */
static void fill(uint8_t *page, uint64_t number) {
    for (size_t i = 0; i < PAGE / sizeof number; i++) memcpy(page + i * sizeof number, &number, sizeof number);
}

static bool has(const uint8_t *page, uint64_t number) {
    uint64_t found[PAGE / sizeof number];
    memcpy(found, page, PAGE);
    for (size_t i = 0; i < PAGE / sizeof number; i++)
        if (found[i] != number) return false;
    return true;
}

/* Memory of which each page is as one other, offered and lent. */
static uint8_t *lend(size_t pages) {
    uint8_t *at = make_memory(pages);
    for (size_t i = 0; i < pages; i++) fill(at + i * PAGE, 1 + i % (pages / 2));
    offer(at, pages);
    if (!wait_for_count("lent", (long)(pages - pages / 16), 60)) puts("too few pages are lent"), exit(1);
    return at;
}

/* Gives up a page again and again, and notes how long that takes at most. */
static _Atomic double longest;
static void *give_up(void *page) {
    while (!atomic_load(&is_over)) {
        double begun = now(), took = 0;
        if (madvise(page, PAGE, MADV_DONTNEED) != 0) perror("a discard"), exit(1);
        took = now() - begun;
        if (took > atomic_load(&longest)) atomic_store(&longest, took);
        usleep(500);
    }
    return NULL;
}

static pthread_t start(void *(*does)(void *), void *with) {
    pthread_t thread;
    if (pthread_create(&thread, NULL, does, with) != 0) perror("pthread_create"), exit(1);
    return thread;
}

static void stop(pthread_t thread) {
    atomic_store(&is_over, true);
    pthread_join(thread, NULL);
}

static int range(void) {
    enum { PAGES = 512, RANGES = 4, OF_ONE = 64 };
    uint8_t *at = lend(PAGES), *more[RANGES];
    for (size_t i = 0; i < RANGES; i++) {
        more[i] = make_memory(OF_ONE + 1); /* (a page between two keeps them apart) */
        for (size_t page = 0; page < OF_ONE; page++) fill(more[i] + page * PAGE, 1000 + page);
    }
    atomic_store(&is_slow, true);
    for (size_t i = 0; i < RANGES; i++) offer(more[i], OF_ONE);
    pthread_t thread = start(give_up, at + PAGE);
    bool are_windows = wait_for_count("windows", 1 + RANGES, 30);
    stop(thread);
    printf("  %d slow reads, a discard took %.1f ms at most\n", atomic_load(&slow_reads), atomic_load(&longest) * 1000);
    if (!are_windows || atomic_load(&slow_reads) < RANGES) return puts("the ranges become no windows"), 1;
    return atomic_load(&longest) < 0.5 ? 0 : 1;
}

/* `of_writes`: the page that is given up lies outside what is guarded, as who guards pages gives none of them up. */
static int end(bool of_writes) {
    enum { PAGES = 16384, GIVEN_UP = 5, GUARDED = PAGES - GIVEN_UP - 1 };
    int faults = (int)syscall(SYS_userfaultfd, O_CLOEXEC | O_NONBLOCK | UFFD_USER_MODE_ONLY);
    struct uffdio_api api = {.api = UFFD_API, .features = of_writes ? UFFD_FEATURE_PAGEFAULT_FLAG_WP : 0};
    if (faults < 0 || ioctl(faults, UFFDIO_API, &api) != 0)
        return printf("left out: userfaultfd: %s\n", strerror(errno)), LEFT_OUT;
    uint8_t *at = lend(PAGES);
    struct uffdio_register all = {.range = {.start = (uintptr_t)at, .len = (size_t)GUARDED * PAGE},
                                  .mode = of_writes ? UFFDIO_REGISTER_MODE_WP : UFFDIO_REGISTER_MODE_MISSING};
    struct uffdio_writeprotect guard = {.range = all.range, .mode = UFFDIO_WRITEPROTECT_MODE_WP};
    pthread_t thread = start(give_up, at + (PAGES - GIVEN_UP) * PAGE);
    usleep(200000);
    atomic_store(&longest, 0);
    double begun = now();
    int status = ioctl(faults, UFFDIO_REGISTER, &all);
    if (status == 0 && of_writes) status = ioctl(faults, UFFDIO_WRITEPROTECT, &guard);
    double took = now() - begun;
    stop(thread);
    close(faults);
    size_t wrong = 0;
    for (size_t i = 0; i < PAGES; i++) wrong += has(at + i * PAGE, i == PAGES - GIVEN_UP ? 0 : 1 + i % (PAGES / 2)) ? 0 : 1;
    printf("  the end took %.0f ms, a discard meanwhile %.1f ms at most; %zu wrong pages\n", took * 1000,
           atomic_load(&longest) * 1000, wrong);
    if (status != 0 || wrong > 0) return perror("the monitor's userfaultfd"), 1;
    return atomic_load(&longest) < took / 2 ? 0 : 1;
}

/* Counts how often the mappings are read for locked memory. */
static int locks(void) {
    enum { PAGES = 512, SECONDS = 12, DEAR_MS = 10, READS_MOST = 4 };
    uint8_t *other = make_memory(16);
    lend(PAGES);
    usleep(500000);
    atomic_store(&dear_ms, DEAR_MS);
    atomic_store(&is_slow, true);
    for (size_t i = 0; i < SECONDS * 20; i++, usleep(50000))
        if ((i % 2 == 0 ? mlock : munlock)(other, (1 + i / 2 % 16) * PAGE) != 0)
            return printf("left out: mlock: %s\n", strerror(errno)), LEFT_OUT;
    printf("  read %d times in %d s\n", atomic_load(&slow_reads), SECONDS);
    return atomic_load(&slow_reads) > 0 && atomic_load(&slow_reads) <= READS_MOST ? 0 : 1;
}

enum { DISK_PAGES = 8192, APART = 4, READERS = 4, BUFFERS = 32 };
static struct {
    int file;
    uint8_t *at;
} disk;

/* Reads to every APART-th page by chance. */
static void *read_on(void *number) {
    unsigned state = (unsigned)(uintptr_t)number * 7919 + 1;
    struct iovec buffers[BUFFERS];
    while (!atomic_load(&is_over)) {
        for (size_t i = 0; i < BUFFERS; i++) {
            state = state * 1103515245 + 12345;
            buffers[i] = (struct iovec){disk.at + (size_t)(state >> 8) % (DISK_PAGES / APART) * APART * PAGE, PAGE};
        }
        if (preadv(disk.file, buffers, BUFFERS, 0) != BUFFERS * PAGE) perror("preadv"), exit(1);
    }
    return NULL;
}

static int busy_disk(void) {
    char name[] = "/var/tmp/waitsXXXXXX";
    static uint8_t bytes[BUFFERS * PAGE];
    int made = mkstemp(name);
    if (made < 0 || write(made, bytes, sizeof bytes) != sizeof bytes) return perror(name), 1;
    close(made);
    disk.file = open(name, O_RDONLY | O_DIRECT);
    unlink(name);
    if (disk.file < 0) return printf("left out: O_DIRECT: %s\n", strerror(errno)), LEFT_OUT;
    disk.at = make_memory(DISK_PAGES);
    for (size_t i = 0; i < DISK_PAGES; i++) fill(disk.at + i * PAGE, i % APART != 0 ? 1 + i / 8 * APART + i % APART : 100000 + i);
    pthread_t readers[READERS];
    for (uintptr_t i = 0; i < READERS; i++) readers[i] = start(read_on, (void *)i);
    offer(disk.at, DISK_PAGES);
    const long wanted = DISK_PAGES / APART * (APART - 1) / 10 * 9;
    bool are_lent = wait_for_count("lent", wanted, 60);
    printf("  %ld pages are lent while %d threads read with %d buffers each; at least %ld should be\n", library_count("lent"),
           READERS, BUFFERS, wanted);
    atomic_store(&is_over, true);
    for (size_t i = 0; i < READERS; i++) pthread_join(readers[i], NULL);
    for (size_t i = 0; i < DISK_PAGES; i++)
        if (i % APART != 0 && !has(disk.at + i * PAGE, 1 + i / 8 * APART + i % APART)) return puts("a page is wrong"), 1;
    return are_lent ? 0 : 1;
}

static int orphan(void) {
    enum { SECONDS = 20 };
    int ends[2];
    char byte = 0;
    if (pipe(ends) != 0) return perror("pipe"), 1;
    pid_t sharing = fork();
    if (sharing == 0) {
        aio_context_t context = 0;
        offer(make_memory(64), 64);
        atomic_store(&is_asking_slow, true);
        if (fork() == 0) _exit(by_instruction(SYS_io_setup, 1, &context) == 0 && write(ends[1], "x", 1) == 1 ? 0 : 1);
        usleep(200000);
        _exit(0);
    }
    close(ends[1]);
    struct pollfd end = {.fd = ends[0], .events = POLLIN};
    bool is_answered = waitpid(sharing, NULL, 0) == sharing && poll(&end, 1, 1000 * SECONDS) == 1 && read(ends[0], &byte, 1) == 1;
    return is_answered ? 0 : (puts("the call isn't answered"), 1);
}

int main(int count, char **words) {
    const char *way = count == 2 ? words[1] : "";
    int status = strcmp(way, "range") == 0    ? range()
                 : strcmp(way, "end") == 0    ? end(false)
                 : strcmp(way, "guard") == 0  ? end(true)
                 : strcmp(way, "disk") == 0   ? busy_disk()
                 : strcmp(way, "locks") == 0  ? locks()
                 : strcmp(way, "orphan") == 0 ? orphan()
                                              : 2;
    fflush(stdout);
    return status;
}
