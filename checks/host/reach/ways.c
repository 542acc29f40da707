#define _GNU_SOURCE
#include "ways.h"
#include "../breaker/ring.h"
#include "../instruction.h"
#include <dlfcn.h>
#include <errno.h>
#include <fcntl.h>
#include <linux/aio_abi.h>
#include <linux/mempolicy.h>
#include <linux/userfaultfd.h>
#include <stdio.h>
#include <stdlib.h>
#include <string.h>
#include <sys/ioctl.h>
#include <sys/mman.h>
#include <sys/syscall.h>
#include <sys/uio.h>
#include <sys/wait.h>
#include <time.h>
#include <unistd.h>

enum {
    BLOCKS = 256,   /* of the file: each is a page with a content */
    SECTOR = 512,   /* the least that O_DIRECT reads */
    RUN_MOST = 16,  /* pages that most ways concern, */
    MANY_MOST = 128 /* and some */
};

static enum how made;
static int direct;            /* the file by O_DIRECT */
static int self;              /* this process's descriptor */
static char name[64];         /* by which it is opened anew */
static atomic_long begins_at; /* in milliseconds: from then on devices are used */

static long now_ms(void) {
    struct timespec now;
    clock_gettime(CLOCK_MONOTONIC, &now);
    return now.tv_sec * 1000 + now.tv_nsec / 1000000;
}

static void pause_us(struct worker *worker, uint64_t most) { usleep((useconds_t)draw(&worker->seed, most)); }

/* Whether a call is made by its number. */
static bool is_numbered(struct worker *worker) { return made == BY_NUMBER && draw(&worker->seed, 2) == 0; }

/* The same of one that the filter shows: what makes it then, or NULL. */
static long (*raw_call(struct worker *worker))(long number, ...) {
    if (made == BY_INSTRUCTION) return by_instruction;
    return is_numbered(worker) ? syscall : NULL;
}

/* What was read from a block on is there. */
static bool took(struct run run, uint64_t block, const char *how) {
    for (size_t i = 0; i < run.count; i++) pages_are((struct run){run.first + i, 1}, (block + i) % CONTENTS);
    pages_check(run, how);
    return true;
}

static off_t place_of(uint64_t block) { return (off_t)(block * PAGE); }

static uint64_t some_block(struct worker *worker, struct run run) { return draw(&worker->seed, BLOCKS - run.count); }

/* ---- by itself ---- */

static bool store(struct worker *worker, struct run run) {
    for (size_t page = run.first; page < run.first + run.count; page++) page_write(page, draw(&worker->seed, CONTENTS));
    return true;
}

static bool store_words(struct worker *worker, struct run run) {
    for (size_t page = run.first; page < run.first + run.count; page++)
        page_write_word(page, draw(&worker->seed, WORDS), draw(&worker->seed, 3));
    return true;
}

static bool clear_each_second(struct worker *worker, struct run run) {
    (void)worker;
    for (size_t page = run.first; page < run.first + run.count; page += 2) page_write(page, 0);
    return true;
}

static bool give_up(struct worker *worker, struct run run) {
    const struct iovec it = {page_at(run.first), bytes_of(run)};
    long (*raw)(long number, ...) = raw_call(worker);
    bool by_process = made == BY_INSTRUCTION || draw(&worker->seed, 2) == 0, is_good;
    if (by_process && raw) is_good = raw(SYS_process_madvise, self, &it, 1, MADV_DONTNEED, 0) == (long)it.iov_len;
    else if (by_process) is_good = process_madvise(self, &it, 1, MADV_DONTNEED, 0) == (long)it.iov_len;
    else if (raw) is_good = raw(SYS_madvise, it.iov_base, it.iov_len, MADV_DONTNEED) == 0;
    else is_good = madvise(it.iov_base, it.iov_len, MADV_DONTNEED) == 0;
    if (is_good) pages_are(run, 0);
    return is_good;
}

/* ---- by files ---- */

static bool read_pages(struct worker *worker, int file, struct run run, uint64_t block, const char *how) {
    bool is_raw = is_numbered(worker);
    ssize_t got;
    do
        got = is_raw ? syscall(SYS_pread64, file, page_at(run.first), bytes_of(run), place_of(block))
                     : pread(file, page_at(run.first), bytes_of(run), place_of(block));
    while (got < 0 && errno == EINTR);
    return got == (ssize_t)bytes_of(run) && took(run, block, how);
}

/* With as many buffers as a call takes. */
static bool read_parts(struct worker *worker, struct run run) {
    static _Thread_local struct iovec parts[MANY_MOST * PAGE / SECTOR];
    const size_t count = run.count * PAGE / SECTOR;
    const uint64_t block = some_block(worker, run);
    for (size_t i = 0; i < count; i++) parts[i] = (struct iovec){page_at(run.first) + i * SECTOR, SECTOR};
    bool is_raw = is_numbered(worker);
    ssize_t got;
    do
        got = is_raw ? syscall(SYS_preadv, direct, parts, count, place_of(block), 0L)
                     : preadv(direct, parts, (int)count, place_of(block));
    while (got < 0 && errno == EINTR);
    return got == (ssize_t)bytes_of(run) && took(run, block, "read by many buffers");
}

/* A file that is switched to O_DIRECT for the call. */
static bool read_switched(struct worker *worker, struct run run) {
    bool is_raw = is_numbered(worker);
    int file = is_raw ? (int)syscall(SYS_openat, AT_FDCWD, name, O_RDONLY | O_CLOEXEC, 0) : open(name, O_RDONLY | O_CLOEXEC);
    int status = is_raw ? (int)syscall(SYS_fcntl, file, F_SETFL, O_DIRECT) : fcntl(file, F_SETFL, O_DIRECT);
    if (file < 0 || status != 0) return close(file), false;
    bool is_good = read_pages(worker, file, run, some_block(worker, run), "read by a file that was switched");
    fcntl(file, F_SETFL, 0);
    if (is_raw) syscall(SYS_close, file);
    else close(file);
    return is_good;
}

typedef int setup_function(int most, aio_context_t *context);

static int set_up(struct worker *worker, aio_context_t *context) {
    long (*raw)(long number, ...) = raw_call(worker);
    setup_function *by_library = raw ? NULL : (setup_function *)(uintptr_t)dlsym(RTLD_DEFAULT, "io_setup");
    *context = 0;
    if (!by_library) return (int)(raw ? raw : syscall)(SYS_io_setup, RUN_MOST, context);
    errno = -by_library(RUN_MOST, context);
    return errno == 0 ? 0 : -1;
}

/* io_submit, a request for each page. */
static bool read_submitted(struct worker *worker, struct run run) {
    struct iocb requests[RUN_MOST], *all[RUN_MOST];
    struct io_event ends[RUN_MOST];
    aio_context_t context;
    const uint64_t block = some_block(worker, run);
    long sent = 0, done = 0;
    if (set_up(worker, &context) != 0) return false;
    pause_us(worker, 20000);
    for (size_t i = 0; i < run.count; i++) {
        requests[i] = (struct iocb){.aio_lio_opcode = IOCB_CMD_PREAD,
                                    .aio_fildes = (uint32_t)direct,
                                    .aio_buf = (uintptr_t)page_at(run.first + i),
                                    .aio_nbytes = PAGE,
                                    .aio_offset = place_of(block + i)};
        all[i] = &requests[i];
    }
    while (sent < (long)run.count) {
        long more = syscall(SYS_io_submit, context, (long)run.count - sent, all + sent);
        if (more <= 0 && errno != EINTR && errno != EAGAIN) break;
        sent += more > 0 ? more : 0;
    }
    while (done < sent) {
        long more = syscall(SYS_io_getevents, context, 1L, sent - done, ends + done, NULL);
        done += more > 0 ? more : 0;
    }
    syscall(SYS_io_destroy, context);
    return done == (long)run.count && took(run, block, "read by io_submit");
}

/* ---- by io_uring ---- */

enum ring_kind { BY_DESCRIPTOR, BY_KEPT_FILE, BY_PINNED_PAGES };

static bool begin_by(struct ring *ring, enum ring_kind kind, struct run run, uint64_t block) {
    void *at = page_at(run.first);
    if (kind == BY_PINNED_PAGES) return ring_begin_read(ring, direct, at, bytes_of(run), place_of(block));
    return ring_begin_plain_read(ring, kind == BY_KEPT_FILE ? -1 : direct, at, bytes_of(run), place_of(block));
}

static bool prepare_ring(struct ring *ring, enum ring_kind kind, struct run run) {
    if (kind == BY_PINNED_PAGES) return ring_pin(ring, page_at(run.first), bytes_of(run));
    if (kind == BY_DESCRIPTOR) return true;
    int file = open(name, O_RDONLY | O_DIRECT | O_CLOEXEC);
    bool is_kept = file >= 0 && ring_keep(ring, file);
    close(file); /* (the ring alone has the file) */
    return is_kept;
}

static bool read_by_ring(struct worker *worker, struct run run, enum ring_kind kind, const char *how) {
    struct ring ring;
    const uint64_t block = some_block(worker, run);
    if (!ring_make(&ring)) return false;
    bool is_good = prepare_ring(&ring, kind, run);
    pause_us(worker, 50000);
    if (is_good && draw(&worker->seed, 2) == 0) store(worker, run);
    if (is_good) pause_us(worker, 50000);
    is_good =
        is_good && begin_by(&ring, kind, run, block) && ring_end_read(&ring) == (ssize_t)bytes_of(run) && took(run, block, how);
    ring_end(&ring);
    return is_good;
}
static bool read_ring(struct worker *worker, struct run run) {
    return read_by_ring(worker, run, BY_DESCRIPTOR, "read by io_uring");
}
static bool read_kept(struct worker *worker, struct run run) {
    return read_by_ring(worker, run, BY_KEPT_FILE, "read by an io_uring that has the file");
}
static bool read_pinned(struct worker *worker, struct run run) {
    return read_by_ring(worker, run, BY_PINNED_PAGES, "read to registered buffers");
}

/* ---- a userfaultfd of its own ---- */

static int control(struct worker *worker, int file, unsigned long request, void *with) {
    long (*raw)(long number, ...) = raw_call(worker);
    return raw ? (int)raw(SYS_ioctl, file, request, with) : ioctl(file, request, with);
}

static int open_faults(uint64_t features) {
    struct uffdio_api api = {.api = UFFD_API, .features = features};
    int file = (int)syscall(SYS_userfaultfd, O_CLOEXEC | O_NONBLOCK | UFFD_USER_MODE_ONLY);
    if (file >= 0 && ioctl(file, UFFDIO_API, &api) != 0) close(file), file = -1;
    return file;
}

/* As for a postcopy: all that was there is there still, also zeros that were given back; a page that is given up then is missing. */
static bool watch_missing(struct worker *worker, struct run run) {
    static _Thread_local uint8_t data[PAGE] __attribute__((aligned(PAGE)));
    const size_t page = run.first + draw(&worker->seed, run.count);
    const uint64_t content = draw(&worker->seed, CONTENTS);
    struct uffdio_register asked = {.range = {(uintptr_t)page_at(run.first), bytes_of(run)},
                                    .mode = UFFDIO_REGISTER_MODE_MISSING};
    struct uffdio_copy copy = {.dst = (uintptr_t)page_at(page), .src = (uintptr_t)data, .len = PAGE};
    int faults = open_faults(0);
    if (faults < 0) return false;
    pages_check(run, "before it is watched"); /* (what was given up is there now, too) */
    bool is_good = control(worker, faults, UFFDIO_REGISTER, &asked) == 0;
    if (is_good) pages_check(run, "while it is watched");
    content_fill(data, content);
    /* (EBUSY: a device may have pinned its copy, which stays over a frame) */
    if (is_good && (madvise(page_at(page), PAGE, MADV_DONTNEED) == 0 || errno != EBUSY)) {
        if (ioctl(faults, UFFDIO_COPY, &copy) != 0) note_wrong(page, "a page that was given up isn't missing");
        pages_are((struct run){page, 1}, content);
    }
    pages_check(run, "once the page was brought");
    if (is_good && control(worker, faults, UFFDIO_UNREGISTER, &asked.range) != 0) note_wrong(page, "UFFDIO_UNREGISTER");
    close(faults);
    return is_good;
}

/* As for a background snapshot. */
static bool watch_writes(struct worker *worker, struct run run) {
    struct uffdio_register asked = {.range = {(uintptr_t)page_at(run.first), bytes_of(run)}, .mode = UFFDIO_REGISTER_MODE_WP};
    struct uffdio_writeprotect guard = {.range = asked.range, .mode = UFFDIO_WRITEPROTECT_MODE_WP};
    int faults = open_faults(UFFD_FEATURE_PAGEFAULT_FLAG_WP);
    if (faults < 0) return false;
    pages_check(run, "before it is guarded");
    bool is_good =
        control(worker, faults, UFFDIO_REGISTER, &asked) == 0 && control(worker, faults, UFFDIO_WRITEPROTECT, &guard) == 0;
    pause_us(worker, 20000);
    pages_check(run, "while it is guarded");
    guard.mode = 0;
    is_good = is_good && control(worker, faults, UFFDIO_WRITEPROTECT, &guard) == 0;
    close(faults);
    return is_good;
}

/* ---- what else is said of the memory ---- */

static bool say_policy(struct worker *worker, struct run run) {
    const unsigned long node = 1;
    const int modes[] = {MPOL_PREFERRED, MPOL_BIND, MPOL_DEFAULT};
    const int mode = modes[draw(&worker->seed, sizeof modes / sizeof *modes)];
    return syscall(SYS_mbind, page_at(run.first), bytes_of(run), mode, mode == MPOL_DEFAULT ? NULL : &node,
                   mode == MPOL_DEFAULT ? 0L : 64L, 0L) == 0;
}

/* The part leaves sharing, and is offered anew. */
static bool leave(struct worker *worker, struct run run) {
    uint8_t *at = page_at(run.first);
    /* (not mlock and munlock, of which the address sanitizer makes nothing) */
    bool is_raw = is_numbered(worker), is_good;
    if (draw(&worker->seed, 2) == 0)
        is_good =
            (is_raw ? (int)syscall(SYS_mprotect, at, bytes_of(run), PROT_READ) : mprotect(at, bytes_of(run), PROT_READ)) == 0;
    else is_good = (is_raw ? (int)syscall(SYS_mlock2, at, bytes_of(run), 0) : mlock2(at, bytes_of(run), 0)) == 0;
    pages_check(run, "once it has left");
    mprotect(at, bytes_of(run), PROT_READ | PROT_WRITE);
    syscall(SYS_munlock, at, bytes_of(run));
    pages_offer((struct run){worker->first, worker->count});
    return is_good;
}

/* A child makes calls that are shown, too. */
static bool fork_child(struct worker *worker, struct run run) {
    int status = 1;
    fflush(stdout);
    pid_t child = fork();
    if (child < 0) return false;
    if (child == 0) {
        aio_context_t context;
        alarm(30);
        _exit(set_up(worker, &context) == 0 ? 0 : errno == EAGAIN ? 0 : 1);
    }
    while (waitpid(child, &status, 0) < 0 && errno == EINTR) {
    }
    if (status != 0) note_wrong(run.first, "a child");
    return status == 0;
}

/* ---- by chance ---- */

enum odds { OFTEN = 24, SOMETIMES = 6, SELDOM = 1 };

static struct way {
    const char *name;
    bool (*take)(struct worker *worker, struct run run);
    unsigned odds;
    size_t most;
    bool is_device, is_first; /* once devices are used alone; by the first thread alone */
    bool is_basic;            /* each seed has it; of the others each seed has about half */
    bool is_off;
    atomic_ulong taken, refused;
} ways[] = {
    {.name = "store", .take = store, .odds = OFTEN, .most = RUN_MOST, .is_basic = true},
    {.name = "store_words", .take = store_words, .odds = OFTEN, .most = RUN_MOST, .is_basic = true},
    {.name = "give_up", .take = give_up, .odds = SOMETIMES, .most = RUN_MOST, .is_basic = true},
    {.name = "clear_each_second", .take = clear_each_second, .odds = SOMETIMES, .most = MANY_MOST},
    {.name = "read_parts", .take = read_parts, .odds = SOMETIMES, .most = MANY_MOST},
    {.name = "read_switched", .take = read_switched, .odds = SOMETIMES, .most = RUN_MOST},
    {.name = "read_submitted", .take = read_submitted, .odds = SOMETIMES, .most = RUN_MOST, .is_device = true},
    {.name = "read_ring", .take = read_ring, .odds = SOMETIMES, .most = RUN_MOST, .is_device = true},
    {.name = "read_kept", .take = read_kept, .odds = SOMETIMES, .most = RUN_MOST, .is_device = true},
    {.name = "read_pinned", .take = read_pinned, .odds = SOMETIMES, .most = RUN_MOST, .is_device = true},
    {.name = "watch_missing", .take = watch_missing, .odds = SELDOM, .most = MANY_MOST, .is_first = true},
    {.name = "watch_writes", .take = watch_writes, .odds = SELDOM, .most = MANY_MOST, .is_first = true},
    {.name = "say_policy", .take = say_policy, .odds = SELDOM, .most = RUN_MOST},
    {.name = "leave", .take = leave, .odds = SELDOM, .most = RUN_MOST},
    {.name = "fork_child", .take = fork_child, .odds = SELDOM, .most = 1, .is_first = true},
};
enum { WAYS = sizeof ways / sizeof *ways };

static bool is_possible(const struct worker *worker, const struct way *way) {
    if (way->is_off || (way->is_first && !worker->is_first)) return false;
    return !way->is_device || now_ms() >= atomic_load(&begins_at);
}

void way_take(struct worker *worker) {
    unsigned all = 0;
    for (size_t i = 0; i < WAYS; i++) all += is_possible(worker, &ways[i]) ? ways[i].odds : 0;
    uint64_t drawn = draw(&worker->seed, all);
    for (size_t i = 0; i < WAYS; i++) {
        struct way *way = &ways[i];
        if (!is_possible(worker, way)) continue;
        if (drawn >= way->odds) {
            drawn -= way->odds;
            continue;
        }
        const size_t count = draw(&worker->seed, way->most) + 1;
        const struct run run = {worker->first + draw(&worker->seed, worker->count - count + 1), count};
        atomic_store(&worker->now, way->name);
        atomic_fetch_add(way->take(worker, run) ? &way->taken : &way->refused, 1);
        atomic_store(&worker->now, "no way");
        return;
    }
}

/* ---- */

static bool make_file(void) {
    uint8_t page[PAGE];
    char first[] = "/var/tmp/reachXXXXXX";
    int file = mkstemp(first);
    unlink(first);
    for (uint64_t block = 0; block < BLOCKS && file >= 0; block++) {
        content_fill(page, block % CONTENTS);
        if (write(file, page, PAGE) != PAGE) return false;
    }
    if (file < 0 || fsync(file) != 0) return false;
    snprintf(name, sizeof name, "/proc/self/fd/%d", file);
    direct = open(name, O_RDONLY | O_DIRECT | O_CLOEXEC);
    return direct >= 0;
}

bool ways_begin(uint64_t seed, unsigned seconds, enum how how) {
    made = how;
    if (how == BY_INSTRUCTION) ring_call = by_instruction;
    for (size_t i = 0; i < WAYS; i++) ways[i].is_off = !ways[i].is_basic && draw(&seed, 2) == 0;
    atomic_store(&begins_at, now_ms() + (long)draw(&seed, 600UL * seconds));
    self = (int)syscall(SYS_pidfd_open, getpid(), 0);
    return self >= 0 && make_file();
}

void ways_print(char *text, size_t room) {
    size_t used = 0;
    *text = 0;
    for (size_t i = 0; i < WAYS && used < room; i++) {
        const unsigned long taken = atomic_load(&ways[i].taken), refused = atomic_load(&ways[i].refused);
        if (taken + refused > 0) used += (size_t)snprintf(text + used, room - used, " %s %lu/%lu", ways[i].name, taken, refused);
    }
}
