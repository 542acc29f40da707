/*
 * A stand-in for a monitor, to be run under libpageshare-window.so, that makes calls of the system itself; and one that has many descriptors,
 * or guards memory before it offers it. Words: WAY, see `ways`. Those that begin with "raw-" make calls by an instruction of their own, past the
 * C library, and want PAGESHARE_FILTER=1; with "number-" in its place they make the same calls by `syscall`, and want none. Prints what isn't so,
 * and at last "WAY: good" (status 0) or "WAY: WRONG" (1); or "WAY: left out" (77).
 */
#define _GNU_SOURCE
#include "breaker/ring.h"
#include "instruction.h"
#include "offered.h"
#include <errno.h>
#include <fcntl.h>
#include <linux/aio_abi.h>
#include <linux/io_uring.h>
#include <linux/userfaultfd.h>
#include <linux/vfio.h>
#include <pthread.h>
#include <signal.h>
#include <stdatomic.h>
#include <sys/eventfd.h>
#include <sys/ioctl.h>
#include <sys/resource.h>
#include <sys/syscall.h>
#include <sys/time.h>
#include <sys/uio.h>
#include <sys/wait.h>
#include <time.h>

enum { PAGE = 4096, PAGES = 1024, SECONDS = 30, LEFT_OUT = 77, REQUESTS = 4 };

static unsigned wrong;
static bool is_left_out;
static long (*call)(long number, ...) = by_instruction;

static void check(bool is_so, const char *what) {
    if (is_so) return;
    printf("not so: %s (%s)\n", what, strerror(errno));
    fflush(stdout);
    wrong++;
}

static void left_out(const char *why) {
    printf("left out: %s\n", why);
    is_left_out = true;
}

/* ---- memory ---- */

static void fill(uint8_t *at, size_t pages, unsigned first) {
    for (size_t i = 0; i < pages; i++) memset(at + i * PAGE, (int)(first + i / 2 % 100), PAGE);
}

/* Pages from one on that aren't as `fill` has filled them. */
static size_t differing(const uint8_t *at, size_t from, size_t pages, unsigned first) {
    size_t count = 0;
    for (size_t i = from; i < pages; i++) {
        const uint8_t byte = (uint8_t)(first + i / 2 % 100);
        size_t b = 0;
        while (b < PAGE && at[i * PAGE + b] == byte) b++;
        count += b < PAGE;
    }
    return count;
}

static uint8_t *mapped(size_t pages) {
    uint8_t *at = mmap(NULL, pages * PAGE, PROT_READ | PROT_WRITE, MAP_PRIVATE | MAP_ANONYMOUS, -1, 0);
    if (at == MAP_FAILED) perror("mmap"), exit(2);
    return at;
}

static void offer(uint8_t *at, size_t pages) {
    madvise(at, pages * PAGE, MADV_MERGEABLE);
    madvise(at, pages * PAGE, MADV_DONTFORK);
}

static uint8_t *lent(size_t pages) {
    uint8_t *at = mapped(pages);
    fill(at, pages, 1);
    offer(at, pages);
    check(wait_for_count("lent", (long)pages, SECONDS), "all pages are lent");
    return at;
}

static double now(void) {
    struct timespec t;
    clock_gettime(CLOCK_MONOTONIC, &t);
    return (double)t.tv_sec + (double)t.tv_nsec / 1e9;
}

/* ---- what the library says ---- */

static int said_at = -1; /* a file in the place of standard error */

static void begin_hearing(void) {
    said_at = memfd_create("said", MFD_CLOEXEC);
    if (said_at < 0 || dup2(said_at, STDERR_FILENO) < 0) exit(2);
}

/* Whether it has said that by now. */
static bool has_said(const char *words) {
    static char text[65536];
    ssize_t got = pread(said_at, text, sizeof text - 1, 0);
    text[got > 0 ? got : 0] = 0;
    return strstr(text, words) != NULL;
}

static bool wait_until_said(const char *words) {
    for (unsigned i = 0; i < SECONDS * 50 && !has_said(words); i++) usleep(20000);
    return has_said(words);
}

static const char pinned[] = "devices may have pinned pages", over[] = "lending ends for good", stops[] = "lending stops";

/* How many pages show a frame: they are a file's, though the memory is anonymous. */
static size_t shown(const uint8_t *at, size_t pages) {
    const uint64_t is_file = 1ull << 61;
    size_t count = 0;
    int file = open("/proc/self/pagemap", O_RDONLY | O_CLOEXEC);
    for (size_t i = 0; i < pages; i++) {
        uint64_t entry = is_file;
        ssize_t got = pread(file, &entry, sizeof entry, (off_t)(((uintptr_t)at / PAGE + i) * sizeof entry));
        count += got != sizeof entry || (entry & is_file) != 0;
    }
    close(file);
    return count;
}

/* A file by O_DIRECT, of so many pages that are full of a byte. */
static int open_direct_of(size_t pages, int byte) {
    char name[] = "/var/tmp/raw-callsXXXXXX";
    static uint8_t data[PAGE];
    memset(data, byte, PAGE);
    int made = mkstemp(name), file = open(name, O_RDONLY | O_DIRECT | O_CLOEXEC);
    unlink(name);
    if (made < 0 || file < 0) exit(2);
    for (size_t i = 0; i < pages; i++)
        if (write(made, data, PAGE) != PAGE) exit(2);
    if (fsync(made) != 0 || close(made) != 0) exit(2);
    return file;
}

/* One that the process has from the beginning. */
static int open_direct(void) { return open_direct_of(1, 0); }

/* ---- calls that are shown before they are made ---- */

static void raw_submit(void) {
    aio_context_t context = 0;
    open_direct();
    begin_hearing();
    lent(PAGES);
    check(!has_said(pinned), "nothing is said before");
    check(call(SYS_io_setup, REQUESTS, &context) == 0, "io_setup");
    check(has_said(pinned), "once io_setup returns, pages may be pinned");
}

/* Sets the last member, which older headers call otherwise: where the process's memory for it is. */
static void set_place(void *offsets, size_t bytes, const uint8_t *room) {
    const uint64_t place = (uintptr_t)room;
    memcpy((uint8_t *)offsets + bytes - sizeof place, &place, sizeof place);
}

/* (nothing shows this ring: it has no descriptor) */
static void raw_ring(void) {
    struct io_uring_params params = {.flags = 1u << 14 | 1u << 15}; /* NO_MMAP, REGISTERED_FD_ONLY */
    uint8_t *room = mapped(64);
    memset(room, 0, 64 * PAGE);
    set_place(&params.sq_off, sizeof params.sq_off, room);
    set_place(&params.cq_off, sizeof params.cq_off, room + 32 * PAGE);
    open_direct();
    begin_hearing();
    lent(PAGES);
    check(!has_said(pinned), "nothing is said before");
    long made = call(SYS_io_uring_setup, REQUESTS, &params);
    if (made < 0) return left_out("the system has no such io_uring");
    check(has_said(pinned), "once io_uring_setup returns, pages may be pinned");
}

static void raw_registered(unsigned what) {
    struct ring ring;
    uint8_t *buffer = mapped(1);
    const struct iovec its = {buffer, PAGE};
    int file = open("/dev/null", O_RDONLY);
    begin_hearing();
    lent(PAGES);
    if (!ring_make(&ring)) return left_out("the system has no io_uring");
    check(!has_said(pinned), "nothing is said of a ring alone");
    const void *with = what == IORING_REGISTER_FILES ? (const void *)&file : &its;
    check(call(SYS_io_uring_register, ring.fd, what, with, 1) == 0, "io_uring_register");
    check(has_said(pinned), "once it is registered, pages may be pinned");
}
static void raw_buffers(void) { raw_registered(IORING_REGISTER_BUFFERS); }
static void raw_files(void) { raw_registered(IORING_REGISTER_FILES); }

static void raw_map(void) {
    struct vfio_iommu_type1_dma_map map = {.argsz = sizeof map};
    int file = open("/dev/null", O_RDONLY);
    begin_hearing();
    uint8_t *at = lent(PAGES);
    check(!has_said(over), "nothing is said before");
    check(call(SYS_ioctl, file, VFIO_IOMMU_MAP_DMA, &map) == -1 && errno == ENOTTY, "the system has the last word");
    check(has_said(over), "once memory is mapped for a device, nothing is lent");
    check(differing(at, 0, PAGES, 1) == 0, "pages keep their content");
}

static int open_faults(uint64_t features) {
    struct uffdio_api api = {.api = UFFD_API, .features = features};
    int made = (int)syscall(SYS_userfaultfd, O_CLOEXEC | O_NONBLOCK | UFFD_USER_MODE_ONLY);
    return made >= 0 && ioctl(made, UFFDIO_API, &api) == 0 ? made : -1;
}

static void raw_guard(void) {
    int faults = open_faults(UFFD_FEATURE_PAGEFAULT_FLAG_WP);
    if (faults < 0) return left_out("no userfaultfd of its own");
    begin_hearing();
    uint8_t *at = lent(PAGES);
    struct uffdio_register asked = {.range = {(uintptr_t)at, PAGES * PAGE}, .mode = UFFDIO_REGISTER_MODE_WP};
    struct uffdio_writeprotect guard = {.range = asked.range, .mode = UFFDIO_WRITEPROTECT_MODE_WP};
    check(call(SYS_ioctl, faults, UFFDIO_REGISTER, &asked) == 0, "UFFDIO_REGISTER");
    check(!has_said(stops), "memory that isn't guarded yet may show frames");
    check(call(SYS_ioctl, faults, UFFDIO_WRITEPROTECT, &guard) == 0, "UFFDIO_WRITEPROTECT");
    check(has_said(stops) && shown(at, PAGES) == 0, "once memory is guarded, it shows no frames");
    check(differing(at, 0, PAGES, 1) == 0, "pages keep their content");
    close(faults);
    fill(at, PAGES, 7);
    check(wait_until_said("lending goes on") && wait_for_count("lent", PAGES, SECONDS), "without the guard all is lent again");
    check(!has_said(over) && differing(at, 0, PAGES, 7) == 0, "pages keep their content then");
    check(mprotect(at, PAGE, PROT_READ) == 0 && munmap(at, PAGES * PAGE) == 0, "mprotect and munmap");
}

/* As for a postcopy: pages that are missing wait for the monitor, and all others are there. Then all is lent again. */
static void raw_missing(void) {
    int faults = open_faults(0);
    if (faults < 0) return left_out("no userfaultfd of its own");
    begin_hearing();
    uint8_t *at = lent(PAGES), *page = mapped(1);
    struct uffdio_register asked = {.range = {(uintptr_t)at, PAGES * PAGE}, .mode = UFFDIO_REGISTER_MODE_MISSING};
    struct uffdio_copy copy = {.dst = (uintptr_t)at + 9 * PAGE, .src = (uintptr_t)page, .len = PAGE};
    memset(page, 5, PAGE); /* (as `fill` fills that page) */
    check(madvise(at + 9 * PAGE, PAGE, MADV_DONTNEED) == 0, "MADV_DONTNEED");
    check(call(SYS_ioctl, faults, UFFDIO_REGISTER, &asked) == 0, "UFFDIO_REGISTER");
    check(has_said(stops) && shown(at, PAGES) == 0, "once memory is watched, it shows no frames");
    usleep(1500000); /* (looks don't touch what is missing) */
    check(ioctl(faults, UFFDIO_COPY, &copy) == 0, "the discarded page is missing");
    check(madvise(at + 11 * PAGE, PAGE, MADV_DONTNEED) == 0, "MADV_DONTNEED of a page that is watched");
    copy.dst = (uintptr_t)at + 11 * PAGE;
    memset(page, 6, PAGE);
    check(ioctl(faults, UFFDIO_COPY, &copy) == 0 && differing(at, 0, PAGES, 1) == 0, "pages have their content");
    check(ioctl(faults, UFFDIO_UNREGISTER, &asked.range) == 0, "UFFDIO_UNREGISTER");
    check(wait_until_said("lending goes on") && wait_for_count("lent", PAGES, SECONDS), "without the watch all is lent again");
    check(!has_said(over) && differing(at, 0, PAGES, 1) == 0, "pages keep their content then");
}

static void raw_advice(void) {
    uint8_t *at = lent(PAGES);
    const struct iovec all[] = {{at, 64 * PAGE}, {at + 128 * PAGE, 64 * PAGE}};
    int self = (int)syscall(SYS_pidfd_open, getpid(), 0);
    long done = call(SYS_process_madvise, self, all, 2, MADV_DONTNEED, 0);
    check(done == 128 * PAGE, "process_madvise");
    size_t others = 0;
    for (size_t i = 0; i < 64 * PAGE; i++) others += at[i] != 0 || at[128 * PAGE + i] != 0;
    check(others == 0, "what is discarded is zeros");
    check(call(SYS_process_madvise, self, (void *)8, 1, MADV_DONTNEED, 0) == -1 && errno == EFAULT, "an array that isn't there");
    uint8_t *own = mapped(1);
    const struct iovec one = {own, PAGE};
    own[0] = 1;
    check(call(SYS_process_madvise, self, &one, 1, MADV_COLD, 0) == PAGE && own[0] == 1, "advice on other memory");
}

/* ---- a context that no look finds ---- */

static bool tell(int end) { return write(end, "x", 1) == 1; }

static bool hear(int end) {
    char byte = 0;
    return read(end, &byte, 1) == 1;
}

enum { EVENTS = 1024, READS = 64, APART = 8 };

/* A process that has a context, and ends it when it is told. */
static void hold_context(int told, int tells) {
    aio_context_t its = 0;
    bool is_good = by_instruction(SYS_io_setup, EVENTS, &its) == 0 && tell(tells) && hear(told);
    _exit(is_good && by_instruction(SYS_io_destroy, its) == 0 && tell(tells) ? 0 : 1);
}

/* Reads pages of the file to some of the memory's. */
static void submit_reads(aio_context_t context, int file, uint8_t *at) {
    static struct iocb requests[READS], *all[READS];
    static struct io_event ends[READS];
    long sent = 0, done = 0;
    for (size_t i = 0; i < READS; i++) {
        requests[i] = (struct iocb){.aio_lio_opcode = IOCB_CMD_PREAD,
                                    .aio_fildes = (uint32_t)file,
                                    .aio_buf = (uintptr_t)at + i * APART * PAGE,
                                    .aio_nbytes = PAGE,
                                    .aio_offset = (long long)(i * PAGE)};
        all[i] = &requests[i];
    }
    while (sent < READS) {
        long more = syscall(SYS_io_submit, context, READS - sent, all + sent);
        if (more <= 0) break;
        sent += more;
    }
    while (done < sent) {
        long more = syscall(SYS_io_getevents, context, 1L, sent - done, ends + done, NULL);
        done += more > 0 ? more : 0;
    }
    check(done == READS, "all requests end");
}

/* Another process ends as large a context in the moment in which this one makes its own: the system's number stays as it is. */
static void raw_collide(void) {
    int told[2], tells[2], file = open_direct_of(READS, 'D');
    aio_context_t context = 0;
    if (pipe(told) != 0 || pipe(tells) != 0) exit(2);
    if (fork() == 0) hold_context(told[0], tells[1]);
    if (!hear(tells[0])) exit(2);
    begin_hearing();
    uint8_t *at = lent(PAGES);
    usleep(500000); /* (looks know the number) */
    check(!has_said(pinned), "nothing is said before");
    check(tell(told[1]) && call(SYS_io_setup, EVENTS, &context) == 0, "io_setup");
    check(has_said(pinned), "once io_setup returns, pages may be pinned");
    check(hear(tells[0]), "the other context");
    check(wait_for_count("devices", 2, SECONDS), "the counts say so, too");
    fill(at, PAGES, 7); /* (copies, which were lent) */
    usleep(200000);
    submit_reads(context, file, at);
    usleep(500000);
    for (size_t i = 0; i < READS; i++) {
        const uint8_t *page = at + i * APART * PAGE;
        for (size_t b = 0; b < PAGE; b++) check(page[b] == 'D', "a page has what was read"), b += page[b] == 'D' ? 0 : PAGE;
        memset(at + i * APART * PAGE, (int)(7 + i * APART / 2 % 100), PAGE);
    }
    check(differing(at, 0, PAGES, 7) == 0, "all others keep their content");
    wait(NULL);
}

/* ---- calls by their numbers ---- */

/* Those that go on, and those that don't, are as the C library makes them. */
static void numbers_same(void) {
    const long none[] = {-1, 511, 512, 100000};
    uint8_t *own = mapped(1), *at = lent(PAGES);
    int file = memfd_create("two pages", MFD_CLOEXEC), other = memfd_create("its copy", MFD_CLOEXEC), status = 0;
    long long from = 0, to = 0;
    memset(own, 'A', PAGE);
    if (write(file, own, PAGE) != PAGE || write(file, "B", 1) != 1 || ftruncate(file, 2 * PAGE) != 0) exit(2);
    errno = EDOM;
    check(call(SYS_getppid) == getppid() && call(SYS_madvise, own, PAGE, MADV_NORMAL) == 0 && errno == EDOM &&
              call(SYS_madvise, at, PAGE, MADV_WILLNEED) == 0 && call(SYS_pread64, file, own, 1L, 0L) == 1 && errno == EDOM,
          "errno stays as it was");
    for (size_t i = 0; i < sizeof none / sizeof *none; i++)
        check(call(none[i]) == -1 && errno == ENOSYS, "there is no such call");
    check(call(SYS_close, -1) == -1 && errno == EBADF && call(SYS_ioctl, -1, 1L, 0L) == -1 && errno == EBADF,
          "no such descriptor");
    uint8_t *second = (uint8_t *)call(SYS_mmap, NULL, (long)PAGE, (long)PROT_READ, (long)MAP_PRIVATE, (long)file, (long)PAGE);
    check(second != MAP_FAILED && second[0] == 'B', "the sixth word of mmap");
    check(call(SYS_copy_file_range, file, &from, other, &to, (long)PAGE, 1L) == -1 && errno == EINVAL,
          "a sixth word that is refused");
    check(call(SYS_copy_file_range, file, &from, other, &to, (long)PAGE, 0L) == PAGE, "and one that isn't");
    pid_t child = (pid_t)call(SYS_clone, (long)SIGCHLD, 0L, 0L, 0L, 0L);
    if (child == 0) _exit(9);
    check(waitpid(child, &status, 0) == child && WIFEXITED(status) && WEXITSTATUS(status) == 9, "a child");
    check(differing(at, 0, PAGES, 1) == 0, "pages keep their content");
}

/* Pages leave sharing before a call that windows can't bear, and what it is about is its alone. */
static void numbers_of_memory(void) {
    const long fixed = MAP_PRIVATE | MAP_ANONYMOUS | MAP_FIXED, rights = PROT_READ | PROT_WRITE;
    uint8_t *at = lent(PAGES), *to = mapped(4);
    check(call(SYS_mprotect, at, (long)PAGE, (long)PROT_READ) == 0 && shown(at, 1) == 0, "mprotect");
    check(call(SYS_pkey_mprotect, at + 2 * PAGE, (long)PAGE, rights, -1L) == 0 && shown(at + 2 * PAGE, 1) == 0, "pkey_mprotect");
    check(call(SYS_mlock, at + 4 * PAGE, (long)PAGE) == 0 && shown(at + 4 * PAGE, 1) == 0, "mlock");
    check(call(SYS_mlock2, at + 6 * PAGE, (long)PAGE, 0L) == 0 && shown(at + 6 * PAGE, 1) == 0, "mlock2");
    check(call(SYS_madvise, at + 8 * PAGE, (long)PAGE, (long)MADV_DONTNEED) == 0 && at[8 * PAGE] == 0, "MADV_DONTNEED");
    check(call(SYS_mmap, at + 10 * PAGE, (long)PAGE, rights, fixed, -1L, 0L) == (long)(at + 10 * PAGE), "mmap over a page");
    check(at[10 * PAGE] == 0 && shown(at + 10 * PAGE, 1) == 0, "which is zeros then");
    check(call(SYS_mremap, at + 12 * PAGE, 2L * PAGE, (long)PAGE, 0L, 0L) == (long)(at + 12 * PAGE), "mremap to less");
    check(call(SYS_mremap, at + 14 * PAGE, (long)PAGE, (long)PAGE, (long)(MREMAP_MAYMOVE | MREMAP_FIXED), to) == (long)to,
          "mremap to another place");
    check(to[17] == 1 + 14 / 2 && shown(to, 1) == 0, "a page keeps its content there");
    check(call(SYS_munmap, at + 16 * PAGE, (long)PAGE) == 0, "munmap");
    check(call(SYS_mlock, at, (long)PAGE) == 0 && call(SYS_munlock, at, (long)PAGE) == 0, "mlock of what has left");
    check(differing(at, 17, PAGES, 1) == 0 && shown(at + 17 * PAGE, PAGES - 17) == PAGES - 17, "all others are lent still");
}

/* Files are seen, and the library's own descriptors stay. */
static void numbers_of_files(void) {
    char name[] = "/var/tmp/raw-callsXXXXXX", own[64];
    int made = mkstemp(name), busy = 0;
    begin_hearing();
    uint8_t *at = lent(PAGES);
    int file = (int)call(SYS_openat, (long)AT_FDCWD, name, (long)(O_RDONLY | O_DIRECT | O_CLOEXEC), 0L);
    check(file >= 0 && wait_for_count("devices", 1, SECONDS), "a file by O_DIRECT is seen");
    check(call(SYS_close, (long)file) == 0 && fcntl(file, F_GETFD) == -1, "it is closed");
    file = (int)call(SYS_open, name, (long)(O_RDONLY | O_CLOEXEC), 0L);
    check(file >= 0 && call(SYS_fcntl, (long)file, (long)F_SETFL, (long)O_DIRECT) == 0, "one that is switched");
    for (long place = 3; place < 65536; place++) {
        snprintf(own, sizeof own, "/proc/self/fd/%ld", place);
        if (access(own, F_OK) != 0 || place == file || place == made || place == said_at) continue;
        busy += call(SYS_dup2, (long)file, place) == -1 && errno == EBUSY &&
                call(SYS_dup3, (long)file, place, (long)O_CLOEXEC) == -1 && errno == EBUSY;
        check(call(SYS_close, place) == 0 && access(own, F_OK) == 0, "a descriptor of the library's stays");
    }
    check(busy > 1, "none takes their places");
    unlink(name);
    check(call(SYS_close_range, 3L, (long)UINT32_MAX, 0L) == 0 && fcntl(file, F_GETFD) == -1, "close_range");
    fill(at, PAGES, 7);
    check(wait_for_count("lent", PAGES, SECONDS) && differing(at, 0, PAGES, 7) == 0, "what was written is lent again");
    said_at = -1;
}

/* ---- forks, signals and threads ---- */

static bool can_set_up(void) {
    aio_context_t context = 0;
    return call(SYS_io_setup, REQUESTS, &context) == 0 && syscall(SYS_io_destroy, context) == 0;
}

static const char sets_up[] = "sets-up";

static bool can_other_program(void) {
    int status = 1;
    pid_t child = fork();
    if (child == 0) _exit(execl("/proc/self/exe", "raw_calls", sets_up, NULL));
    return waitpid(child, &status, 0) == child && status == 0;
}

/* A child's calls are answered while its parent lives, and afterwards: a process that shares forks one and ends. */
static void raw_child(void) {
    int ends[2], status = 0;
    char byte = 0;
    if (pipe(ends) != 0) exit(2);
    pid_t sharing = fork();
    if (sharing == 0) {
        lent(PAGES);
        check(can_other_program(), "another program's call");
        if (fork() != 0) _exit(wrong > 0);
        bool early = can_set_up();
        for (int i = 0; i < 100 && getppid() != 1; i++) usleep(20000); /* (or whoever adopts it) */
        usleep(200000);
        _exit(early && can_set_up() && write(ends[1], "x", 1) == 1 ? 0 : 1);
    }
    close(ends[1]);
    check(waitpid(sharing, &status, 0) == sharing && status == 0, "the process that shares");
    check(read(ends[0], &byte, 1) == 1 && byte == 'x', "a child that outlives it");
}

static void nothing(int number) { (void)number; }

/* A signal's handler comes amid the wait, many times: the call is made. (Before the listener has taken it, it is made again by SA_RESTART.) */
static void raw_signals(void) {
    const struct itimerval each = {{0, 200}, {0, 200}};
    const struct sigaction action = {.sa_handler = nothing, .sa_flags = SA_RESTART};
    unsigned failed = 0;
    lent(PAGES);
    sigaction(SIGALRM, &action, NULL);
    setitimer(ITIMER_REAL, &each, NULL);
    for (unsigned i = 0; i < 500; i++) failed += !can_set_up();
    check(failed == 0, "io_setup beside signals");
}

static atomic_bool is_over;
static atomic_uint made, failed;

static void sets_up_again(int number) {
    (void)number;
    atomic_fetch_add(&failed, !can_set_up());
    atomic_fetch_add(&made, 1);
}

/* Reads by O_DIRECT, with many buffers each, so that the library often has its lock. */
static void *reads(void *with) {
    enum { BUFFERS = 512 };
    static struct iovec buffers[BUFFERS];
    int file = open_direct();
    for (size_t i = 0; i < BUFFERS; i++) buffers[i] = (struct iovec){(uint8_t *)with + i * PAGE, PAGE};
    while (!atomic_load(&is_over))
        if (preadv(file, buffers, BUFFERS, 0) != PAGE) atomic_fetch_add(&failed, errno != EINTR);
    return NULL;
}

/* A signal's handler makes such a call wherever its thread is, also amid the library's own steps: nobody waits for ever. On a busy computer
   fewer calls do. */
static void raw_handler(void) {
    enum { CALLS = 2000, WAITS = 50000, SECONDS = 40 };
    const struct sigaction action = {.sa_handler = sets_up_again, .sa_flags = SA_RESTART};
    pthread_t thread;
    uint8_t *at = lent(PAGES);
    unsigned sent = 0;
    sigaction(SIGUSR1, &action, NULL);
    pthread_create(&thread, NULL, reads, at);
    const time_t end = time(NULL) + SECONDS;
    for (; sent < CALLS && atomic_load(&made) == sent && time(NULL) < end; sent++) {
        pthread_kill(thread, SIGUSR1);
        for (unsigned waits = 0; waits < WAITS && atomic_load(&made) == sent; waits++) usleep(100);
        usleep(sent * 37 % 300);
    }
    printf("  %u calls of the handler\n", atomic_load(&made));
    check(sent > 0 && atomic_load(&made) == sent, "each signal's handler ends");
    check(atomic_load(&failed) == 0, "all calls are made");
    check(differing(at, PAGES / 2, PAGES, 1) == 0, "pages that nobody writes keep their content");
    if (wrong > 0) exit(1); /* (the thread may wait for ever) */
    atomic_store(&is_over, true);
    pthread_join(thread, NULL);
}

static void *makes(void *unused) {
    while (!atomic_load(&is_over)) {
        struct io_uring_params params = {0};
        int ring = (int)call(SYS_io_uring_setup, REQUESTS, &params);
        if (ring >= 0) close(ring);
        atomic_fetch_add(&failed, !can_set_up());
        atomic_fetch_add(&made, 1);
        usleep(500);
    }
    return unused;
}

/* Discards a quarter of the pages, which no other thread touches. */
static void *discards(void *with) {
    uint8_t *at = with;
    for (unsigned i = 0; !atomic_load(&is_over); i++) {
        uint8_t *page = at + i * 37 % (PAGES / 4) * PAGE;
        memset(page, (int)(i % 251), PAGE);
        if (madvise(page, PAGE, MADV_DONTNEED) != 0 || page[17] != 0) atomic_fetch_add(&failed, 1);
    }
    return NULL;
}

/* Threads that make such calls beside ones that are in the library, and beside forks. */
static void raw_threads(void) {
    enum { THREADS = 6 };
    pthread_t threads[THREADS];
    uint8_t *at = lent(PAGES);
    for (size_t i = 0; i < THREADS; i++)
        pthread_create(&threads[i], NULL, i < THREADS - 2 ? makes : discards, at + i % 2 * (PAGES / 4) * PAGE);
    for (unsigned i = 0; i < 40; i++) {
        int status = 1;
        pid_t child = fork();
        if (child == 0) _exit(can_set_up() ? 0 : 1);
        check(waitpid(child, &status, 0) == child && status == 0, "a child's call");
        usleep(50000);
    }
    atomic_store(&is_over, true);
    for (size_t i = 0; i < THREADS; i++) pthread_join(threads[i], NULL);
    printf("  %u rounds\n", atomic_load(&made));
    check(atomic_load(&failed) == 0 && atomic_load(&made) > 0, "all calls are made");
    check(differing(at, PAGES / 2, PAGES, 1) == 0, "pages that nobody writes keep their content");
}

/* What a call takes, in nanoseconds: the least of some turns. */
static double cost_of(long number, long first, long second, long third, unsigned times) {
    double least = 1e9;
    for (unsigned turn = 0; turn < 20; turn++) {
        double begin = now();
        for (unsigned i = 0; i < times; i++) call(number, first, second, third);
        double took = (now() - begin) / times * 1e9;
        least = took < least ? took : least;
    }
    return least;
}

static void costs(const char *when) {
    struct io_uring_params bad = {.flags = ~0u};
    int file = open("/dev/null", O_RDONLY);
    printf("  %s: getppid %.0f ns, ioctl %.0f ns, io_uring_setup that the system refuses %.0f ns\n", when,
           cost_of(SYS_getppid, 0, 0, 0, 20000), cost_of(SYS_ioctl, file, 0x5401, 0, 20000),
           cost_of(SYS_io_uring_setup, 1, (long)&bad, 0, 200));
    close(file);
}

static void raw_costs(void) {
    costs("before");
    lent(PAGES);
    costs("while it shares");
}

/* A device is there before any window, as with a disk on QEMU's command line: it is said all the same. */
static void said_early(void) {
    aio_context_t context = 0;
    begin_hearing();
    uint8_t *at = mapped(PAGES);
    fill(at, PAGES, 1);
    offer(at, PAGES);
    if (syscall(SYS_io_setup, REQUESTS, &context) != 0) return left_out("the system has no io_setup");
    open_direct();
    check(wait_for_count("lent", PAGES, SECONDS), "all pages are lent");
    check(has_said(pinned), "it is said that pages may be pinned");
}

/* It shares until it is told to end. */
/* Says a word, and waits for a line. */
static void says(const char *word) {
    puts(word);
    fflush(stdout);
    while (getchar() > ' ') continue;
}

static void stays(void) {
    lent(PAGES);
    says("lent");
}

/* The same, and then a part of the memory is guarded by the monitor for a while. */
static void stays_guarded(void) {
    int faults = open_faults(UFFD_FEATURE_PAGEFAULT_FLAG_WP);
    if (faults < 0) return left_out("no userfaultfd of its own");
    uint8_t *at = lent(PAGES);
    struct uffdio_register asked = {.range = {(uintptr_t)at, PAGES * PAGE}, .mode = UFFDIO_REGISTER_MODE_WP};
    struct uffdio_writeprotect guard = {.range = {(uintptr_t)at, PAGE}, .mode = UFFDIO_WRITEPROTECT_MODE_WP};
    check(call(SYS_ioctl, faults, UFFDIO_REGISTER, &asked) == 0, "UFFDIO_REGISTER");
    check(call(SYS_ioctl, faults, UFFDIO_WRITEPROTECT, &guard) == 0, "UFFDIO_WRITEPROTECT");
    says("guarded");
    close(faults);
    fill(at, PAGES, 7);
    says("free");
    check(differing(at, 0, PAGES, 7) == 0, "pages keep their content");
}

/* ---- many descriptors, and memory that is guarded first ---- */

static void open_many(size_t count, bool are_files) {
    struct rlimit limit;
    getrlimit(RLIMIT_NOFILE, &limit);
    limit.rlim_cur = limit.rlim_max < count + 200 ? limit.rlim_max : count + 200;
    if (setrlimit(RLIMIT_NOFILE, &limit) != 0 || limit.rlim_cur < count + 200) exit(LEFT_OUT);
    for (size_t i = 0; i < count; i++)
        if ((are_files ? open("/etc/passwd", O_RDONLY | O_CLOEXEC) : eventfd(0, EFD_CLOEXEC)) < 0) perror("open"), exit(2);
}

/* To look at all descriptors takes longer than the thread's share allows: looks go on, and it is said. */
static void descriptors(void) {
    open_many(12000, false);
    begin_hearing();
    double begin = now();
    lent(PAGES);
    printf("  all pages are lent after %.1f s\n", now() - begin);
    check(has_said("a look at all descriptors takes"), "it is said");
}

/* Pages are written while there is an io_uring, and lent again: what is registered with it is asked each time. */
static void ringed(void) {
    struct ring ring;
    open_many(900, true);
    if (!ring_make(&ring)) return left_out("the system has no io_uring");
    uint8_t *at = lent(4 * PAGES);
    double begin = now();
    fill(at, 4 * PAGES, 101);
    usleep(400000);
    check(wait_for_count("lent", 4 * PAGES, SECONDS / 2), "what was written is lent again");
    printf("  lent again after %.1f s; nothing was held longer than %.2f ms\n", now() - begin,
           (double)library_count("hold_most_ns") / 1e6);
}

static int monitors_faults;
static const size_t GUARDED = 2 * PAGES;

static void *serves(void *with) {
    static uint8_t page[PAGE] __attribute__((aligned(PAGE)));
    uint8_t *at = with;
    for (;;) {
        struct uffd_msg message;
        if (read(monitors_faults, &message, sizeof message) != (ssize_t)sizeof message) {
            usleep(1000);
            continue;
        }
        uint64_t from = message.arg.pagefault.address & ~(uint64_t)(PAGE - 1);
        struct uffdio_writeprotect protect = {.range = {from, PAGE}};
        if (message.arg.pagefault.flags & UFFD_PAGEFAULT_FLAG_WP) {
            ioctl(monitors_faults, UFFDIO_WRITEPROTECT, &protect);
            continue;
        }
        memset(page, (int)(1 + (from - (uintptr_t)at) / PAGE / 2 % 100), PAGE);
        struct uffdio_copy copy = {.dst = from, .src = (uintptr_t)page, .len = PAGE};
        ioctl(monitors_faults, UFFDIO_COPY, &copy);
    }
    return NULL;
}

/* The monitor guards memory, and offers it then: it goes on as without the library. */
static void guarded_first(uint64_t mode) {
    pthread_t thread;
    monitors_faults = open_faults(mode == UFFDIO_REGISTER_MODE_WP ? UFFD_FEATURE_PAGEFAULT_FLAG_WP : 0);
    if (monitors_faults < 0) return left_out("no userfaultfd of its own");
    uint8_t *at = mapped(GUARDED), *lent_at = mapped(PAGES);
    if (mode == UFFDIO_REGISTER_MODE_WP) fill(at, GUARDED, 1);
    struct uffdio_register asked = {.range = {(uintptr_t)at, GUARDED * PAGE}, .mode = mode};
    if (ioctl(monitors_faults, UFFDIO_REGISTER, &asked) != 0) exit(2);
    pthread_create(&thread, NULL, serves, at);
    fill(lent_at, PAGES, 1);
    offer(at, GUARDED);
    offer(lent_at, PAGES);
    for (size_t i = 0; i < GUARDED / 2; i++) (void)*(volatile uint8_t *)(at + i * PAGE);
    check(wait_for_count("lent", PAGES, SECONDS), "other memory is lent");
    sleep(3);
    check(library_count("lent") == PAGES, "nothing is lent of what the monitor guards");
    check(madvise(at + 9 * PAGE, PAGE, MADV_DONTNEED) == 0, "MADV_DONTNEED of a page");
    check(mprotect(at + 11 * PAGE, PAGE, PROT_READ | PROT_WRITE) == 0, "mprotect of a page");
    check(differing(at, GUARDED / 2, GUARDED, 1) == 0, "pages that the monitor fills");
    check(munmap(at + 100 * PAGE, 50 * PAGE) == 0, "munmap of a part");
}
static void missing_first(void) { guarded_first(UFFDIO_REGISTER_MODE_MISSING); }
static void protected_first(void) { guarded_first(UFFDIO_REGISTER_MODE_WP); }

/* The monitor watches memory before it offers it, and before there is a host: that memory is shared once the watch is over. */
static void watched_early(bool of_writes) {
    int faults = open_faults(of_writes ? UFFD_FEATURE_PAGEFAULT_FLAG_WP : 0);
    if (faults < 0) return left_out("no userfaultfd of its own");
    uint8_t *at = mapped(PAGES), *other = mapped(PAGES), *page = mapped(1);
    struct uffdio_register asked = {.range = {(uintptr_t)at, PAGES * PAGE},
                                    .mode = of_writes ? UFFDIO_REGISTER_MODE_WP : UFFDIO_REGISTER_MODE_MISSING};
    struct uffdio_copy copy = {.dst = (uintptr_t)at + 9 * PAGE, .src = (uintptr_t)page, .len = PAGE};
    fill(at, PAGES, 1);
    fill(other, PAGES, 1);
    memset(page, 5, PAGE); /* (as `fill` fills that page) */
    check(ioctl(faults, UFFDIO_REGISTER, &asked) == 0, "UFFDIO_REGISTER");
    offer(at, PAGES);
    offer(other, PAGES);
    says("watched");
    check(wait_for_count("lent", PAGES, SECONDS), "other memory is lent");
    sleep(4);
    check(library_count("lent") == PAGES && shown(at, PAGES) == 0, "nothing is lent of what is watched");
    check(of_writes || (madvise(at + 9 * PAGE, PAGE, MADV_DONTNEED) == 0 && ioctl(faults, UFFDIO_COPY, &copy) == 0),
          "the watch is there still");
    if (of_writes) close(faults);
    else check(ioctl(faults, UFFDIO_UNREGISTER, &asked.range) == 0, "UFFDIO_UNREGISTER");
    check(wait_for_count("lent", 2 * PAGES, SECONDS), "once the watch is over all is lent");
    check(differing(at, 0, PAGES, 1) == 0, "pages keep their content");
}
static void missing_early(void) { watched_early(false); }
static void protected_early(void) { watched_early(true); }

/* A request past the C library, where no filter shows it: the library finds that another one guards the memory, and leaves that alone. */
static void guarded_later(void) {
    int faults = open_faults(UFFD_FEATURE_PAGEFAULT_FLAG_WP);
    if (faults < 0) return left_out("no userfaultfd of its own");
    uint8_t *at = mapped(PAGES), *lent_at = mapped(PAGES);
    for (size_t i = 0; i < PAGES; i++) *(size_t *)(void *)(at + i * PAGE) = i + 1; /* (nothing to lend yet) */
    offer(at, PAGES);
    fill(lent_at, PAGES, 1);
    offer(lent_at, PAGES);
    check(wait_for_count("lent", PAGES, SECONDS), "other memory is lent");
    struct uffdio_register asked = {.range = {(uintptr_t)at, PAGES * PAGE}, .mode = UFFDIO_REGISTER_MODE_WP};
    check(by_instruction(SYS_ioctl, faults, UFFDIO_REGISTER, &asked) == 0, "UFFDIO_REGISTER");
    fill(at, PAGES, 1); /* (equal to what is lent) */
    sleep(3);
    check(differing(at, 0, PAGES, 1) == 0, "pages keep their content");
    struct uffdio_writeprotect protect = {.range = {(uintptr_t)at, PAGE}, .mode = UFFDIO_WRITEPROTECT_MODE_WP};
    check(ioctl(faults, UFFDIO_WRITEPROTECT, &protect) == 0, "the monitor's own watch is there");
    protect.mode = 0;
    check(ioctl(faults, UFFDIO_WRITEPROTECT, &protect) == 0 && madvise(at + 9 * PAGE, PAGE, MADV_DONTNEED) == 0, "MADV_DONTNEED");
    check(mprotect(at + 11 * PAGE, PAGE, PROT_READ | PROT_WRITE) == 0, "mprotect");
}

/* Copies that a device may have pinned stay over frames: what is mapped in their place anew the monitor's userfaultfd wouldn't watch. */
static void watched_copies(void) {
    struct ring ring;
    int faults = open_faults(0);
    open_direct();
    begin_hearing();
    if (faults < 0 || !ring_make(&ring)) return left_out("no userfaultfd of its own, or no io_uring");
    uint8_t *at = lent(PAGES), *page = at + 9 * PAGE;
    struct uffdio_register asked = {.range = {(uintptr_t)at, PAGES * PAGE}, .mode = UFFDIO_REGISTER_MODE_MISSING};
    check(wait_until_said(pinned), "pages may be pinned");
    fill(at, PAGES, 7);
    check(mprotect(page + PAGE, PAGE, PROT_READ | PROT_WRITE) == 0, "a page that leaves");
    check(ioctl(faults, UFFDIO_REGISTER, &asked) == 0, "UFFDIO_REGISTER");
    for (size_t i = 0; i < 2; i++)
        check(madvise(page + i * PAGE, PAGE, MADV_DONTNEED) == -1 && errno == EBUSY,
              "a copy can't be given up while it is watched");
    check(differing(at, 0, PAGES, 7) == 0, "pages keep their content");
    check(ioctl(faults, UFFDIO_UNREGISTER, &asked.range) == 0, "UFFDIO_UNREGISTER");
    check(madvise(page, 2 * PAGE, MADV_DONTNEED) == 0 && page[17] == 0 && page[PAGE] == 0, "then it can");
    check(differing(at, 11, PAGES, 7) == 0, "pages keep their content then");
}

static const struct way {
    const char *name;
    void (*run)(void);
} ways[] = {
    {"raw-submit", raw_submit},
    {"raw-ring", raw_ring},
    {"raw-buffers", raw_buffers},
    {"raw-files", raw_files},
    {"raw-map", raw_map},
    {"raw-guard", raw_guard},
    {"raw-missing", raw_missing},
    {"raw-advice", raw_advice},
    {"raw-collide", raw_collide},
    {"raw-same", numbers_same},
    {"raw-memory", numbers_of_memory},
    {"raw-descriptors", numbers_of_files},
    {"raw-child", raw_child},
    {"raw-signals", raw_signals},
    {"raw-threads", raw_threads},
    {"raw-handler", raw_handler},
    {"raw-costs", raw_costs},
    {"stays", stays},
    {"stays-guarded", stays_guarded},
    {"said-early", said_early},
    {"descriptors", descriptors},
    {"ringed", ringed},
    {"missing-first", missing_first},
    {"protected-first", protected_first},
    {"guarded-later", guarded_later},
    {"watched-copies", watched_copies},
    {"missing-early", missing_early},
    {"protected-early", protected_early},
};

/* Whether a way has this name; by_number: with "number-" in the place of "raw-". */
static bool is_named(const struct way *way, const char *name, bool by_number) {
    const char *rest = strchr(way->name, '-');
    if (!by_number) return strcmp(name, way->name) == 0;
    return strncmp(way->name, "raw-", 4) == 0 && strcmp(strchr(name, '-'), rest) == 0;
}

int main(int count, char **words) {
    const char *name = count > 1 ? words[1] : "";
    bool is_known = false, by_number = strncmp(name, "number-", 7) == 0;
    if (strcmp(name, sets_up) == 0) return can_set_up() ? 0 : 1;
    if (by_number) call = syscall;
    library_count("lent"); /* (so that memory for it is there) */
    for (size_t i = 0; i < sizeof ways / sizeof ways[0]; i++) {
        if (!is_named(&ways[i], name, by_number)) continue;
        is_known = true;
        ways[i].run();
    }
    if (!is_known) return fputs("raw_calls: no such way\n", stderr), 2;
    if (said_at >= 0) {
        char text[4096] = "";
        ssize_t got = pread(said_at, text, sizeof text - 1, 0);
        printf("%.*s", (int)(got > 0 ? got : 0), text);
    }
    printf("%s: %s\n", name, wrong > 0 ? "WRONG" : is_left_out ? "left out" : "good");
    return wrong > 0 ? 1 : is_left_out ? LEFT_OUT : 0;
}
