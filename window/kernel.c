#define _GNU_SOURCE
#include "kernel.h"
#include "lines.h"
#include "newer.h"
#include <errno.h>
#include <fcntl.h>
#include <pthread.h>
#include <sched.h>
#include <stdatomic.h>
#include <stdio.h>
#include <string.h>
#include <sys/mman.h>
#include <sys/resource.h>
#include <sys/syscall.h>
#include <time.h>
#include <unistd.h>

#ifndef MREMAP_DONTUNMAP
#define MREMAP_DONTUNMAP 4
#endif

/* Tries of a call that the system asks to make again. */
enum { TRIES = 64 };

/*
 * Where memory of the library itself is: 16 TiB in the middle of the addresses, where the system maps nothing by itself. `pageshare estimate`
 * knows it by these numbers (crates/live_memory/src/mapping.rt).
 */
#define APART_BEGIN UINT64_C(0x200000000000)
#define APART_END UINT64_C(0x300000000000)

enum { MOVE_DONT_WAKE = 1 };

/* As a scan returns it. */
struct region {
    uint64_t start, end, categories;
};
enum {
    IS_UNGUARDED = 1 << 1,
    IS_FILE = 1 << 2,
    IS_PRESENT = 1 << 3,
    IS_SWAPPED = 1 << 4,
    IS_ZERO_PAGE = 1 << 5,
    IS_HUGE = 1 << 6
};

/* Bits of an entry of /proc/self/pagemap. */
static const uint64_t ENTRY_PRESENT = 1ull << 63, ENTRY_SWAPPED = 1ull << 62, ENTRY_FILE = 1ull << 61, ENTRY_GUARDED = 1ull << 57;

static int error_of(int status) { return status < 0 ? errno : 0; }

static struct uffdio_range range_of(const void *at, size_t pages) {
    return (struct uffdio_range){.start = (uintptr_t)at, .len = bytes_of(pages)};
}

/*
 * A userfaultfd by the system call. A library that interposes functions of the C library hears of its second descriptor, which it may give a
 * number that the process's own files don't get. Where there is no second one it goes on by the first.
 */
static int call_for_faults(void) {
    int first = (int)syscall(SYS_userfaultfd, O_CLOEXEC | O_NONBLOCK);
    int second = first >= 0 ? fcntl(first, F_DUPFD_CLOEXEC, 0) : NO_FILE;
    if (second < 0) return first;
    close(first);
    return second;
}

static int open_faults(int device) {
    int opened = device > 0 ? device : open("/dev/userfaultfd", O_RDWR | O_CLOEXEC);
    int fd = opened >= 0 ? ioctl(opened, USERFAULTFD_IOC_NEW, O_CLOEXEC | O_NONBLOCK) : NO_FILE;
    int cause = errno;
    if (device <= 0 && opened >= 0) close(opened);
    if (fd < 0 && device <= 0) fd = call_for_faults();
    if (fd < 0 && opened >= 0) errno = cause;
    return fd;
}

int faults_open(struct faults *faults, int device, bool never_move) {
    const uint64_t protects = UFFD_FEATURE_PAGEFAULT_FLAG_WP | UFFD_FEATURE_WP_HUGETLBFS_SHMEM;
    struct uffdio_api moving = {.api = UFFD_API, .features = protects | FEATURE_MOVE};
    struct uffdio_api protecting = {.api = UFFD_API, .features = protects};
    *faults = (struct faults){.fd = open_faults(device)};
    if (faults->fd < 0) return errno;
    faults->moves = !never_move && ioctl(faults->fd, UFFDIO_API, &moving) == 0;
    if (faults->moves || ioctl(faults->fd, UFFDIO_API, &protecting) == 0) return 0;
    int cause = errno;
    close(faults->fd);
    faults->fd = NO_FILE;
    return cause;
}

int faults_wake(const struct faults *faults, void *at, size_t pages) {
    struct uffdio_range range = range_of(at, pages);
    return error_of(ioctl(faults->fd, UFFDIO_WAKE, &range));
}

int faults_end_watch(const struct faults *faults, void *at, size_t pages) {
    struct uffdio_range range = range_of(at, pages);
    int cause = EAGAIN;
    for (int i = 0; i < TRIES && (cause == EAGAIN || cause == ENOMEM); i++) {
        if (i > 0) sched_yield();
        cause = error_of(ioctl(faults->fd, UFFDIO_UNREGISTER, &range));
    }
    if (cause == EBADF || cause == ENOTTY) return 0; /* (its close ended all its watches, and woke everyone) */
    /* (threads that waited for what is mapped anew by now are woken here) */
    int woken = faults_wake(faults, at, pages);
    return cause != 0 ? cause : woken;
}

int faults_watch(const struct faults *faults, void *at, size_t pages, enum faults_of of) {
    struct uffdio_register watched = {.range = range_of(at, pages),
                                      .mode = of == FAULTS_OF_MISSING ? UFFDIO_REGISTER_MODE_MISSING : UFFDIO_REGISTER_MODE_WP};
    int cause = error_of(ioctl(faults->fd, UFFDIO_REGISTER, &watched));
    /* (where the pages are in several mappings it may have begun with some; but not where another userfaultfd has one of them) */
    if (cause != 0 && cause != EBUSY) faults_end_watch(faults, at, pages);
    return cause;
}

int faults_protect(const struct faults *faults, void *at, size_t pages) {
    struct uffdio_writeprotect protect = {.range = range_of(at, pages), .mode = UFFDIO_WRITEPROTECT_MODE_WP};
    int cause = EAGAIN;
    for (int i = 0; i < TRIES && cause == EAGAIN; i++) cause = error_of(ioctl(faults->fd, UFFDIO_WRITEPROTECT, &protect));
    return cause;
}

void faults_move(const struct faults *faults, void *to, void *from, size_t pages, bool *moved) {
    int tries = 0;
    size_t most = pages; /* in one call */
    for (size_t done = 0; done < pages;) {
        size_t asked = pages - done < most ? pages - done : most;
        struct move move = {.to = (uintptr_t)to + bytes_of(done),
                            .from = (uintptr_t)from + bytes_of(done),
                            .bytes = bytes_of(asked),
                            .mode = MOVE_DONT_WAKE};
        int cause = error_of(ioctl(faults->fd, MOVE_PAGES, &move));
        size_t count = move.moved > 0 ? (size_t)move.moved / WINDOW_PAGE_BYTES : 0;
        for (size_t i = 0; i < count; i++) moved[done + i] = true;
        done += count;
        if (count > 0) tries = 0;
        else if (cause == EINVAL && asked > 1) most = 1; /* (the pages may be in several mappings) */
        else if (cause != EAGAIN || ++tries == TRIES) moved[done++] = false, tries = 0;
    }
}

int faults_put(const struct faults *faults, void *to, void *from, bool *remapped) {
    bool moved = false;
    *remapped = false;
    faults_move(faults, to, from, 1, &moved);
    if (moved) return 0;
    struct uffdio_copy copy = {.dst = (uintptr_t)to, .src = (uintptr_t)from, .len = WINDOW_PAGE_BYTES};
    if (ioctl(faults->fd, UFFDIO_COPY, &copy) == 0) return 0;
    *remapped = mremap(from, WINDOW_PAGE_BYTES, WINDOW_PAGE_BYTES, MREMAP_MAYMOVE | MREMAP_FIXED, to) != MAP_FAILED;
    return *remapped ? 0 : errno;
}

int pagemap_open(struct pagemap *pagemap, bool never_scan) {
    struct scan scan = {.size = sizeof scan};
    *pagemap = (struct pagemap){.fd = open("/proc/self/pagemap", O_RDONLY | O_CLOEXEC)};
    if (pagemap->fd < 0) return errno;
    pagemap->scans = !never_scan && ioctl(pagemap->fd, SCAN_PAGES, &scan) >= 0;
    return 0;
}

/* `has_files`: some of the pages may be a file's. To find out, the system looks at each page's record, and that takes long. */
static int find_by_scan(int fd, const void *at, size_t pages, bool has_files, uint8_t *found, bool *is_huge) {
    struct region regions[PAGEMAP_MOST];
    const uint64_t no_file = has_files ? IS_FILE : 0;
    struct scan scan = {.size = sizeof scan,
                        .start = (uintptr_t)at,
                        .end = (uintptr_t)at + bytes_of(pages),
                        .regions = (uintptr_t)regions,
                        .region_count = PAGEMAP_MOST,
                        .inverted = no_file | IS_ZERO_PAGE,
                        .all_of = no_file | IS_ZERO_PAGE | IS_UNGUARDED,
                        .any_of = IS_PRESENT | IS_SWAPPED,
                        .answered = IS_PRESENT | IS_HUGE};
    *is_huge = false;
    while (scan.start < scan.end) {
        int count = ioctl(fd, SCAN_PAGES, &scan);
        if (count < 0) return errno;
        for (int i = 0; i < count; i++) {
            size_t first = (regions[i].start - (uintptr_t)at) / WINDOW_PAGE_BYTES;
            size_t end = (regions[i].end - (uintptr_t)at) / WINDOW_PAGE_BYTES;
            memset(found + first, (regions[i].categories & IS_PRESENT) != 0 ? PAGE_PRESENT : PAGE_SWAPPED, end - first);
            *is_huge = *is_huge || ((regions[i].categories & IS_HUGE) != 0 && end - first == PAGEMAP_MOST);
        }
        if (scan.walk_end <= scan.start) return EIO;
        scan.start = scan.walk_end;
    }
    return 0;
}

/* A guard's own mark reads as swapped; so does a page that is swapped out and guarded, which is found when it isn't guarded. */
static uint8_t kind_of(uint64_t entry) {
    if ((entry & (ENTRY_FILE | ENTRY_GUARDED)) != 0) return PAGE_NONE;
    return (entry & ENTRY_PRESENT) != 0 ? PAGE_PRESENT : (entry & ENTRY_SWAPPED) != 0 ? PAGE_SWAPPED : PAGE_NONE;
}

static int read_entries(int fd, const void *at, size_t pages, uint64_t *entries) {
    size_t wanted = pages * sizeof *entries;
    ssize_t got = pread(fd, entries, wanted, (off_t)((uintptr_t)at / WINDOW_PAGE_BYTES * sizeof *entries));
    if (got < 0) return errno;
    return (size_t)got == wanted ? 0 : EIO;
}

enum { GAP = 8 /* a call takes as long as so many pages more */ };

/* The end of those pages that are looked at by one call, from one on of which this is so: the next such page isn't far. */
static size_t end_of_call(const bool *is_so, size_t first, size_t pages) {
    size_t end = first + 1;
    for (size_t i = end; i < pages && i < end + GAP; i++)
        if (is_so[i]) end = i + 1;
    return end;
}

/* Whether these pages are so many, or so far apart, that all pages' records are looked at in less time than theirs alone. */
static bool are_many(const bool *over, size_t pages) {
    size_t cost = 0;
    for (size_t first = 0, end = 0; first < pages; first = end) {
        end = over[first] ? end_of_call(over, first, pages) : first + 1;
        if (over[first]) cost += end - first + GAP;
    }
    return cost >= pages;
}

/* Finds again those pages that lie over a file's and are there: the file's own don't count. */
static int leave_out_files(int fd, const uint8_t *at, size_t pages, const bool *over, uint8_t *found) {
    bool again[PAGEMAP_MOST];
    int cause = 0;
    for (size_t i = 0; i < pages; i++) again[i] = over[i] && found[i] != PAGE_NONE;
    for (size_t first = 0, end = 0; first < pages && cause == 0; first = end) {
        bool is_huge = false;
        end = again[first] ? end_of_call(again, first, pages) : first + 1;
        if (!again[first]) continue;
        memset(found + first, PAGE_NONE, end - first);
        cause = find_by_scan(fd, at + bytes_of(first), end - first, true, found + first, &is_huge);
    }
    return cause;
}

int pagemap_find(const struct pagemap *pagemap, const void *at, size_t pages, const bool *over, uint8_t *found, bool *is_huge) {
    uint64_t entries[PAGEMAP_MOST];
    memset(found, PAGE_NONE, pages);
    *is_huge = true;
    if (pagemap->scans) {
        bool is_once = over == NULL || are_many(over, pages);
        int failed = find_by_scan(pagemap->fd, at, pages, is_once, found, is_huge);
        return failed != 0 || is_once ? failed : leave_out_files(pagemap->fd, at, pages, over, found);
    }
    int cause = read_entries(pagemap->fd, at, pages, entries);
    for (size_t i = 0; i < pages && cause == 0; i++) found[i] = kind_of(entries[i]);
    return cause;
}

int pagemap_find_copies(const struct pagemap *pagemap, const void *at, size_t pages, bool *own) {
    uint64_t entries[PAGEMAP_MOST];
    int cause = read_entries(pagemap->fd, at, pages, entries);
    for (size_t i = 0; i < pages && cause == 0; i++) own[i] = (entries[i] & (ENTRY_PRESENT | ENTRY_FILE)) == ENTRY_PRESENT;
    return cause;
}

bool pagemap_is_huge(const struct pagemap *pagemap, const void *at) {
    uint8_t found[PAGEMAP_MOST];
    bool is_huge = false;
    return pagemap->scans && find_by_scan(pagemap->fd, at, PAGEMAP_MOST, false, found, &is_huge) == 0 && is_huge;
}

int pagemap_are_guarded(const struct pagemap *pagemap, const void *at, size_t pages) {
    uint64_t entries[PAGEMAP_MOST];
    int cause = read_entries(pagemap->fd, at, pages, entries);
    for (size_t i = 0; i < pages && cause == 0; i++) {
        bool is_there = (entries[i] & (ENTRY_PRESENT | ENTRY_SWAPPED)) != 0;
        if (!is_there || (entries[i] & ENTRY_GUARDED) == 0) cause = EBUSY;
    }
    return cause;
}

void pagemap_find_own(const struct pagemap *pagemap, const void *at, size_t pages, bool *own) {
    uint64_t entries[PAGEMAP_MOST];
    int cause = read_entries(pagemap->fd, at, pages, entries);
    for (size_t i = 0; i < pages; i++) own[i] = cause == 0 && kind_of(entries[i]) != PAGE_NONE;
}

bool pagemap_is_own(const struct pagemap *pagemap, const void *at) {
    bool own;
    pagemap_find_own(pagemap, at, 1, &own);
    return own;
}

/* Memory of the library itself that the system refused to unmap. */
struct left {
    void *at;
    size_t bytes;
};
enum { LEFT_MOST = 64 /* that are kept; what else is left has no memory, and stays mapped */ };
static pthread_mutex_t left_lock = PTHREAD_MUTEX_INITIALIZER; /* round the list; never held in a call of the system */
static struct left left[LEFT_MOST];
static size_t left_count;
static atomic_size_t left_all; /* with those that aren't kept */

static void keep_left(void *at, size_t bytes) {
    pthread_mutex_lock(&left_lock);
    if (left_count < LEFT_MOST) left[left_count++] = (struct left){.at = at, .bytes = bytes};
    pthread_mutex_unlock(&left_lock);
    atomic_fetch_add(&left_all, 1);
}

/* Takes the first one off the list, if there is one. */
static bool take_left(struct left *one) {
    pthread_mutex_lock(&left_lock);
    bool is_any = left_count > 0;
    if (is_any) {
        *one = left[0];
        memmove(left, left + 1, --left_count * sizeof left[0]);
        atomic_fetch_sub(&left_all, 1);
    }
    pthread_mutex_unlock(&left_lock);
    return is_any;
}

void unmap_apart(void *at, size_t bytes) {
    if (bytes == 0 || munmap(at, bytes) == 0) return;
    madvise(at, bytes, MADV_DONTNEED); /* (refused only where it is locked: then it keeps its memory for as long) */
    keep_left(at, bytes);
}

void unmap_again(void) {
    struct left one;
    for (size_t tries = left_mapped(); tries > 0 && take_left(&one); tries--) unmap_apart(one.at, one.bytes);
}

size_t left_mapped(void) { return atomic_load(&left_all); }

/* Maps memory of the library itself in its own range of addresses, from a place in the file on. */
static void *map_apart_from(size_t bytes, int protection, int flags, int file, off_t from) {
    enum { PLACES = 48, LEAP = 20, LEAP_MOST = 40 };
    static _Atomic uintptr_t next = APART_BEGIN;
    static atomic_bool is_used; /* each place was used once */
    const uintptr_t whole = (bytes + WINDOW_PAGE_BYTES - 1) / WINDOW_PAGE_BYTES * WINDOW_PAGE_BYTES;
    for (unsigned i = 0, leap = LEAP; i < PLACES && whole <= APART_END - APART_BEGIN; i++) {
        uintptr_t at = atomic_fetch_add(&next, whole);
        if (at < APART_BEGIN || at > APART_END - whole) {
            atomic_store(&is_used, true);
            atomic_store(&next, APART_BEGIN);
            continue;
        }
        void *found = mmap((void *)at, bytes, protection, flags, file, from);
        if (found == MAP_FAILED || found == (void *)at || !atomic_load(&is_used)) return found;
        /* (that place is taken, so the system chose another) */
        unmap_apart(found, bytes);
        atomic_fetch_add(&next, (uintptr_t)1 << leap);
        leap += leap < LEAP_MOST ? 1 : 0;
    }
    return mmap(NULL, bytes, protection, flags, file, from);
}

void *map_apart(size_t bytes, int protection, int flags, int file) { return map_apart_from(bytes, protection, flags, file, 0); }

void *table_make(size_t count, size_t bytes_each) {
    if (count == 0 || count > SIZE_MAX / bytes_each) return NULL;
    void *at = map_apart(count * bytes_each, PROT_READ | PROT_WRITE, MAP_PRIVATE | MAP_ANONYMOUS, NO_FILE);
    return at == MAP_FAILED ? NULL : at;
}

void table_free(void *table, size_t count, size_t bytes_each) {
    if (table != NULL) unmap_apart(table, count * bytes_each);
}

/* The number that a file begins with, or `otherwise`. */
static size_t number_in(const char *path, size_t otherwise) {
    struct lines lines;
    size_t number = otherwise;
    if (lines_open(&lines, path) != 0) return otherwise;
    const char *line = lines_next(&lines);
    if (line == NULL || sscanf(line, "%zu", &number) != 1) number = otherwise;
    lines_close(&lines);
    return number;
}

/* Whether the system refuses memory that could be written where it has too little for all of it (vm.overcommit_memory is 2). */
enum { UNREAD = -1, ALL_COUNTS = 2 };
static atomic_int overcommit = UNREAD;

/* (where it can't be read the longer way is taken, which is right as well) */
static bool read_overcommit(void) {
    int found = (int)number_in("/proc/sys/vm/overcommit_memory", ALL_COUNTS);
    atomic_store(&overcommit, found);
    return found == ALL_COUNTS;
}

static bool counts_all(void) {
    int found = atomic_load(&overcommit);
    return found == UNREAD ? read_overcommit() : found == ALL_COUNTS;
}

/* Whether the system may refuse this process a mapping by its limits. */
static bool is_limited(void) {
    struct rlimit all = {.rlim_cur = RLIM_INFINITY}, data = all;
    if (counts_all() || getrlimit(RLIMIT_AS, &all) != 0 || getrlimit(RLIMIT_DATA, &data) != 0) return true;
    return all.rlim_cur != RLIM_INFINITY || data.rlim_cur != RLIM_INFINITY;
}

/* The system unmaps a place before it looks whether limits leave room for a copy there. So the copy is made elsewhere, and moved. */
static int copy_and_move(void *at, void *from, size_t bytes) {
    const int how = MREMAP_MAYMOVE | MREMAP_FIXED;
    void *aside = map_apart(bytes, PROT_NONE, MAP_PRIVATE | MAP_ANONYMOUS | MAP_NORESERVE, NO_FILE);
    if (aside == MAP_FAILED) return errno;
    bool is_copied = mremap(from, bytes, bytes, how | MREMAP_DONTUNMAP, aside) != MAP_FAILED;
    if (is_copied && mremap(aside, bytes, bytes, how, at) != MAP_FAILED) return 0;
    int cause = errno;
    unmap_apart(aside, bytes);
    return cause;
}

int mapping_copy(void *at, const void *from, size_t pages) {
    const size_t bytes = bytes_of(pages);
    void *source = (void *)(uintptr_t)from;
    if (is_limited()) return copy_and_move(at, source, bytes);
    return mremap(source, bytes, bytes, MREMAP_MAYMOVE | MREMAP_FIXED | MREMAP_DONTUNMAP, at) == MAP_FAILED ? errno : 0;
}

/* Maps something elsewhere, and moves it to its place. */
static int put_from_aside(void *at, size_t bytes, int protection, int kind, int file, off_t from) {
    const bool is_file = file != NO_FILE;
    void *aside = map_apart_from(bytes, protection, kind, file, from);
    if (aside == MAP_FAILED) return errno;
    bool is_kept = !is_file || madvise(aside, bytes, MADV_DONTFORK) == 0;
    if (is_kept && mremap(aside, bytes, bytes, MREMAP_MAYMOVE | MREMAP_FIXED, at) != MAP_FAILED) return 0;
    int cause = errno;
    unmap_apart(aside, bytes);
    return cause;
}

int mapping_put(void *at, size_t pages, int protection, int file, size_t file_page) {
    return put_from_aside(at, bytes_of(pages), protection, MAP_PRIVATE | MAP_NORESERVE, file, (off_t)bytes_of(file_page));
}

int mapping_put_zeros(void *at, size_t pages, int protection, bool are_reserved) {
    const size_t bytes = bytes_of(pages);
    const int kind = MAP_PRIVATE | MAP_ANONYMOUS | (are_reserved ? 0 : MAP_NORESERVE);
    if (is_limited()) return put_from_aside(at, bytes, protection, kind, NO_FILE, 0);
    return mmap(at, bytes, protection, kind | MAP_FIXED, NO_FILE, 0) == MAP_FAILED ? errno : 0;
}

int locked_kib(size_t *kib) {
    struct lines lines;
    *kib = 0;
    int cause = lines_open(&lines, "/proc/self/status");
    if (cause != 0) return cause;
    for (const char *line; (line = lines_next(&lines)) != NULL && sscanf(line, "VmLck: %zu", kib) != 1;) *kib = 0;
    lines_close(&lines);
    return lines.cause;
}

size_t merged_kib(void) { return bytes_of(number_in("/proc/self/ksm_merging_pages", 0)) / 1024; }

size_t mappings_limit(void) {
    enum { DEFAULT_LIMIT = 65530 };
    read_overcommit();
    return number_in("/proc/sys/vm/max_map_count", DEFAULT_LIMIT);
}

static uint64_t clock_ns(clockid_t clock) {
    struct timespec now;
    clock_gettime(clock, &now);
    return (uint64_t)now.tv_sec * 1000000000u + (uint64_t)now.tv_nsec;
}

uint64_t clock_now_ns(void) { return clock_ns(CLOCK_MONOTONIC); }

uint64_t clock_spent_ns(void) { return clock_ns(CLOCK_THREAD_CPUTIME_ID); }

uint64_t losses_of_processor(void) {
    struct rusage usage;
    return getrusage(RUSAGE_THREAD, &usage) == 0 ? (uint64_t)usage.ru_nivcsw : 0;
}
