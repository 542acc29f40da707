#define _GNU_SOURCE
#include "calls.h"
#include "either.h"
#include <errno.h>
#include <fcntl.h>
#include <stdio.h>
#include <stdlib.h>
#include <string.h>
#include <sys/mman.h>
#include <sys/syscall.h>
#include <sys/uio.h>
#include <unistd.h>

#ifndef MADV_POPULATE_READ
#define MADV_POPULATE_READ 22
#define MADV_POPULATE_WRITE 23
#endif
#ifndef MADV_DONTNEED_LOCKED
#define MADV_DONTNEED_LOCKED 24
#endif
#ifndef MREMAP_DONTUNMAP
#define MREMAP_DONTUNMAP 4
#endif

enum { RIGHTS = PROT_READ | PROT_WRITE, KIND = MAP_PRIVATE | MAP_ANONYMOUS };

struct files files;
bool calls_may_be_refused, calls_are_of_huge_pages;

bool files_make(const char *folder, bool is_direct) {
    char name[256];
    uint8_t page[PAGE];
    snprintf(name, sizeof name, "%s/breaker-XXXXXX", folder);
    files.plain = mkstemp(name);
    files.direct = -1;
    if (files.plain < 0) return false;
    for (uint64_t i = 0; i < FILE_PAGES; i++) {
        content_fill(page, i % CONTENTS);
        if (write(files.plain, page, PAGE) != PAGE) return false;
    }
    if (ftruncate(files.plain, (off_t)PAGE * (FILE_PAGES + CALL_PAGES * CALLERS_MOST)) != 0 || fsync(files.plain) != 0)
        return false;
    if (is_direct) files.direct = open(name, O_RDWR | O_DIRECT | O_CLOEXEC);
    unlink(name);
    return !is_direct || files.direct >= 0;
}

/* ---- contents ---- */

static struct run part(struct run run, size_t most) {
    if (run.count > most) run.count = most;
    return run;
}

static size_t bytes_of(struct run run) { return run.count * PAGE; }

/* Writes whole pages that others have, too, or zeros. */
static int write_pages(struct caller *caller, struct run run) {
    for (size_t page = run.first; page < run.first + run.count; page++) {
        content_fill(page_wanted(page), draw(&caller->seed, CONTENTS));
        shadow.pages[page].may_be_zero = false;
        memcpy(page_at(page), page_wanted(page), PAGE);
    }
    return 0;
}

/* Writes some words of pages. */
static int write_words(struct caller *caller, struct run run) {
    for (size_t page = run.first; page < run.first + run.count; page++) {
        page_settle(page);
        for (uint64_t i = draw(&caller->seed, 3) + 1; i > 0; i--) {
            size_t at = draw(&caller->seed, WORDS);
            uint64_t word = draw(&caller->seed, 4) == 0 ? draw(&caller->seed, UINT32_MAX) : 0;
            ((volatile uint64_t *)(void *)page_at(page))[at] = word;
            memcpy(page_wanted(page) + at * 8, &word, 8);
        }
    }
    return 0;
}

/* What lies at pages after a call that reads to them: so many bytes of these. */
static void took(struct run run, const uint8_t *bytes, size_t count) {
    memcpy(page_wanted(run.first), bytes, count);
    for (size_t page = run.first; page < run.first + (count + PAGE - 1) / PAGE; page++) shadow.pages[page].may_be_zero = false;
}

/* After a read: all of it came, or nothing where the pages aren't writable. */
static int check_read(struct run run, ssize_t status, const uint8_t *bytes) {
    if (page_is_writable(run.first)) {
        if (status == (ssize_t)bytes_of(run)) return took(run, bytes, bytes_of(run)), 0;
        note_wrong(run.first, status < 0 ? strerror(errno) : "a read is short");
    } else if (status != -1 || errno != EFAULT) {
        note_wrong(run.first, "a read to pages that can't be written didn't fail");
    } else {
        return 0;
    }
    return -1;
}

static int read_file(struct caller *caller, struct run run, int file) {
    size_t from = draw(&caller->seed, FILE_PAGES - run.count + 1), half = draw(&caller->seed, run.count + 1) * PAGE;
    off_t offset = (off_t)(from * PAGE);
    uint8_t *at = page_at(run.first);
    const struct iovec parts[] = {{at + half, bytes_of(run) - half}, {at, half}};
    for (size_t i = 0; i < run.count; i++) content_fill(caller->aside + i * PAGE, (from + i) % CONTENTS);
    switch (draw(&caller->seed, 3)) {
    case 0: return check_read(run, either_pread(file, at, bytes_of(run), offset), caller->aside);
    case 1: return check_read(run, either_preadv(file, &(struct iovec){at, bytes_of(run)}, 1, offset), caller->aside);
    default: break;
    }
    /* (two parts the other way round) */
    ssize_t status = either_preadv2(file, parts, 2, offset, 0);
    if (half > 0 && half < bytes_of(run)) {
        size_t second = half / PAGE;
        for (size_t i = 0; i < run.count; i++)
            content_fill(caller->aside + i * PAGE, (from + (i + run.count - second) % run.count) % CONTENTS);
    }
    return check_read(run, status, caller->aside);
}
static int read_plain(struct caller *caller, struct run run) { return read_file(caller, run, files.plain); }
static int read_direct(struct caller *caller, struct run run) { return read_file(caller, run, files.direct); }

/* Writes pages to a file by O_DIRECT, and reads the file. */
static int write_direct(struct caller *caller, struct run run) {
    off_t at = (off_t)(FILE_PAGES + CALL_PAGES * caller->number) * PAGE;
    for (size_t page = run.first; page < run.first + run.count; page++) page_settle(page);
    if (either_pwrite(files.direct, page_at(run.first), bytes_of(run), at) != (ssize_t)bytes_of(run)) return -1;
    if (either_pread(files.plain, caller->aside, bytes_of(run), at) != (ssize_t)bytes_of(run)) return -1;
    for (size_t i = 0; i < run.count; i++)
        bytes_check(run.first + i, caller->aside + i * PAGE, page_wanted(run.first + i), "written by O_DIRECT");
    return 0;
}

/* Reads pages as another process would. */
static int copy_out(struct caller *caller, struct run run) {
    const struct iovec to = {caller->aside, bytes_of(run)}, from = {page_at(run.first), bytes_of(run)};
    for (size_t page = run.first; page < run.first + run.count; page++)
        if (shadow.pages[page].may_be_zero) return 0;
    if (process_vm_readv(getpid(), &to, 1, &from, 1, 0) != (ssize_t)bytes_of(run)) {
        note_wrong(run.first, "process_vm_readv is short");
        return -1;
    }
    for (size_t i = 0; i < run.count; i++)
        bytes_check(run.first + i, caller->aside + i * PAGE, page_wanted(run.first + i), "process_vm_readv");
    return 0;
}

/* Writes to pages as another process would. */
static int copy_in(struct caller *caller, struct run run) {
    const struct iovec from = {caller->aside, bytes_of(run)}, to = {page_at(run.first), bytes_of(run)};
    for (size_t i = 0; i < run.count; i++) content_fill(caller->aside + i * PAGE, draw(&caller->seed, CONTENTS));
    if (process_vm_writev(getpid(), &from, 1, &to, 1, 0) != (ssize_t)bytes_of(run)) {
        note_wrong(run.first, "process_vm_writev is short");
        return -1;
    }
    return took(run, caller->aside, bytes_of(run)), 0;
}

/* ---- discards and places ---- */

static int discard(struct caller *caller, struct run run) {
    static const int kinds[] = {MADV_DONTNEED, MADV_DONTNEED, MADV_FREE, MADV_DONTNEED_LOCKED};
    int kind = kinds[draw(&caller->seed, 4)];
    const struct page *first = &shadow.pages[run.first];
    bool is_due = !first->is_locked || kind == MADV_DONTNEED_LOCKED;
    /* (it wouldn't be known whether the device still reads to these pages) */
    if ((kind == MADV_FREE || calls_may_be_refused) && first->is_pinned) return 0;
    int status = either_madvise(page_at(run.first), bytes_of(run), kind);
    /* (the library refuses it where a device may have pinned pages whose copies stay over frames) */
    if (status != 0 && errno == EINVAL && kind == MADV_DONTNEED_LOCKED && caller->device.is_there) return -1;
    bool is_excused = status != 0 && is_due && calls_may_be_refused;
    if (is_due != (status == 0) && !is_excused) note_wrong(run.first, is_due ? strerror(errno) : "locked pages were discarded");
    if (status == 0 && kind != MADV_FREE) run_is_zero(run);
    for (size_t page = run.first; page < run.first + run.count && ((status == 0 && kind == MADV_FREE) || is_excused); page++) {
        shadow.pages[page].may_be_zero = true;
    }
    return is_due ? status : 0;
}

/* Whether a child of a fork has pages from now on. */
static void note_child(struct run run, bool has_child) {
    for (size_t page = run.first; page < run.first + run.count; page++) {
        shadow.pages[page].has_child = has_child;
        shadow.pages[page].is_unsure = false;
    }
}

/* Says whether a child of a fork is to have pages. What was refused may be done of some of them. */
static int say_child(struct run run, bool has_child) {
    int status = either_madvise(page_at(run.first), bytes_of(run), has_child ? MADV_DOFORK : MADV_DONTFORK);
    if (status == 0) note_child(run, has_child);
    for (size_t page = run.first; page < run.first + run.count && status != 0; page++) shadow.pages[page].is_unsure = true;
    return status;
}

static int let_inherit(struct caller *caller, struct run run) {
    (void)caller;
    return say_child(run, true);
}

static void offer(struct run run) {
    uint8_t *at = page_at(run.first);
    if (calls_are_of_huge_pages) either_madvise(at, bytes_of(run), MADV_HUGEPAGE);
    either_madvise(at, bytes_of(run), MADV_MERGEABLE);
    say_child(run, false);
}

static int unmap(struct caller *caller, struct run run) {
    (void)caller;
    if (either_munmap(page_at(run.first), bytes_of(run)) != 0) return -1;
    run_is_gone(run);
    return 0;
}

static int map_hole(struct caller *caller, struct run run) {
    uint8_t *at = shadow.range + run.first * PAGE;
    void *got = either_mmap(at, bytes_of(run), RIGHTS, KIND | MAP_FIXED_NOREPLACE);
    if (got != at) {
        if (got == MAP_FAILED && errno == EEXIST) note_wrong(run.first, "something lies where pages were unmapped");
        if (got != MAP_FAILED) either_munmap(got, bytes_of(run));
        return -1;
    }
    run_is_new(run);
    if (draw(&caller->seed, 4) > 0) offer(run);
    return 0;
}

static int replace(struct caller *caller, struct run run) {
    uint8_t *at = page_at(run.first);
    if (either_mmap(at, bytes_of(run), RIGHTS, KIND | MAP_FIXED) != at) return -1;
    run_is_new(run);
    if (draw(&caller->seed, 2) == 0) offer(run);
    return 0;
}

static int move_to(struct run run, uint8_t *to, enum place place) {
    if (either_mremap(page_at(run.first), bytes_of(run), bytes_of(run), MREMAP_MAYMOVE | MREMAP_FIXED, to) != to) return -1;
    for (size_t page = run.first; page < run.first + run.count; page++) shadow.pages[page].place = place;
    return 0;
}
static int move_away(struct caller *caller, struct run run) {
    (void)caller;
    return move_to(run, shadow.away + run.first * PAGE, AWAY);
}
static int move_back(struct caller *caller, struct run run) {
    (void)caller;
    return move_to(run, shadow.range + run.first * PAGE, HERE);
}

static int shrink(struct caller *caller, struct run run) {
    size_t left = draw(&caller->seed, run.count - 1) + 1;
    uint8_t *at = page_at(run.first);
    if (either_mremap(at, bytes_of(run), left * PAGE, 0, NULL) != at) return -1;
    run_is_gone((struct run){run.first + left, run.count - left});
    return 0;
}

/* A page grows into the hole behind it. */
static int grow(struct caller *caller, struct run run) {
    const struct page *before = &shadow.pages[run.first - 1];
    uint8_t *at = shadow.range + (run.first - 1) * PAGE;
    (void)caller;
    if (before->is_locked || either_mremap(at, PAGE, PAGE + bytes_of(run), 0, NULL) != at) return -1;
    run_is_new(run);
    for (size_t page = run.first; page < run.first + run.count; page++) {
        shadow.pages[page].protection = before->protection;
        shadow.pages[page].has_child = before->has_child;
        shadow.pages[page].is_unsure = before->is_unsure;
        shadow.pages[page].is_wiped = before->is_wiped;
    }
    return 0;
}

/* Pages are moved away, and zeros stay in their place. */
static int leave_behind(struct caller *caller, struct run run) {
    uint8_t *to = shadow.away + run.first * PAGE;
    (void)caller;
    for (size_t page = run.first; page < run.first + run.count; page++) page_settle(page);
    void *got =
        either_mremap(page_at(run.first), bytes_of(run), bytes_of(run), MREMAP_MAYMOVE | MREMAP_FIXED | MREMAP_DONTUNMAP, to);
    if (got != to) return -1;
    for (size_t i = 0; i < run.count; i++)
        bytes_check(run.first + i, to + i * PAGE, page_wanted(run.first + i), "moved by MREMAP_DONTUNMAP");
    either_munmap(to, bytes_of(run));
    run_is_zero(run);
    return 0;
}

/* ---- what is said of pages ---- */

static int protect(struct caller *caller, struct run run) {
    static const int kinds[] = {PROT_NONE, PROT_READ, RIGHTS, RIGHTS};
    int kind = kinds[draw(&caller->seed, 4)];
    if (either_mprotect(page_at(run.first), bytes_of(run), kind) != 0) return -1;
    for (size_t page = run.first; page < run.first + run.count; page++) shadow.pages[page].protection = kind;
    return 0;
}

static int protect_and_back(struct caller *caller, struct run run) {
    (void)caller;
    if (either_mprotect(page_at(run.first), bytes_of(run), PROT_READ) != 0) return -1;
    run_check(run, "protected");
    int status = either_mprotect(page_at(run.first), bytes_of(run), RIGHTS);
    for (size_t page = run.first; page < run.first + run.count && status != 0; page++) shadow.pages[page].protection = PROT_READ;
    return status;
}

static int lock(struct caller *caller, struct run run) {
    /* (not mlock, which the address sanitizer makes nothing of) */
    if (either_mlock2(page_at(run.first), bytes_of(run), 0) != 0) return -1;
    if (draw(&caller->seed, 2) == 0 && syscall(SYS_munlock, page_at(run.first), bytes_of(run)) == 0) return 0;
    for (size_t page = run.first; page < run.first + run.count; page++) shadow.pages[page].is_locked = true;
    return 0;
}

static int unlock(struct caller *caller, struct run run) {
    (void)caller;
    if (syscall(SYS_munlock, page_at(run.first), bytes_of(run)) != 0) return -1;
    for (size_t page = run.first; page < run.first + run.count; page++) shadow.pages[page].is_locked = false;
    return 0;
}

static int advise(struct caller *caller, struct run run) {
    static const int kinds[] = {MADV_DONTFORK,      MADV_DONTDUMP,       MADV_DODUMP,    MADV_HUGEPAGE,   MADV_NOHUGEPAGE,
                                MADV_UNMERGEABLE,   MADV_COLD,           MADV_MERGEABLE, MADV_NORMAL,     MADV_PAGEOUT,
                                MADV_POPULATE_READ, MADV_POPULATE_WRITE, MADV_WILLNEED,  MADV_WIPEONFORK, MADV_KEEPONFORK};
    int kind = kinds[draw(&caller->seed, sizeof kinds / sizeof kinds[0])];
    if (kind == MADV_DONTFORK) return say_child(run, false);
    if (either_madvise(page_at(run.first), bytes_of(run), kind) != 0) return -1;
    for (size_t page = run.first; page < run.first + run.count; page++)
        if (kind == MADV_WIPEONFORK || kind == MADV_KEEPONFORK) shadow.pages[page].is_wiped = kind == MADV_WIPEONFORK;
    return 0;
}

static int offer_again(struct caller *caller, struct run run) {
    (void)caller;
    offer(run);
    return 0;
}

/* ---- devices ---- */

enum { DEVICE_PAGES = 4 };

void call_end_device(struct caller *caller) {
    struct device *device = &caller->device;
    if (device->step == DEVICE_READING) {
        size_t bytes = bytes_of(device->run);
        for (size_t i = 0; i < device->run.count; i++) content_fill(caller->aside + i * PAGE, draw(&caller->seed, CONTENTS));
        if (write(device->ends[1], caller->aside, bytes) != (ssize_t)bytes) note_wrong(device->run.first, "a pipe is full");
        ssize_t got = ring_end_read(&device->ring);
        if (got != (ssize_t)bytes) note_wrong(device->run.first, "a device's read is short");
        for (size_t i = 0; i < device->run.count && got == (ssize_t)bytes; i++)
            if (shadow.pages[device->run.first + i].is_pinned)
                took((struct run){device->run.first + i, 1}, caller->aside + i * PAGE, PAGE);
        run_check(device->run, "after a device's read");
    }
    if (device->step != DEVICE_IDLE) ring_unpin(&device->ring);
    for (size_t i = 0; i < device->run.count; i++) shadow.pages[device->run.first + i].is_pinned = false;
    device->step = DEVICE_IDLE;
}

/* A device pins pages, begins to read to them, and ends: each at a call of its own. */
static int use_device(struct caller *caller, struct run run) {
    struct device *device = &caller->device;
    if (device->step == DEVICE_READING) return call_end_device(caller), 0;
    if (device->step == DEVICE_PINNED) {
        if (!ring_begin_read(&device->ring, device->ends[0], device->at, bytes_of(device->run), -1)) return -1;
        device->step = DEVICE_READING;
        return 0;
    }
    run = part(run, DEVICE_PAGES);
    device->run = run;
    device->at = page_at(run.first);
    for (size_t page = run.first; page < run.first + run.count; page++) page_settle(page);
    if (!ring_pin(&device->ring, device->at, bytes_of(run))) return -1;
    device->step = DEVICE_PINNED;
    for (size_t page = run.first; page < run.first + run.count; page++) shadow.pages[page].is_pinned = true;
    return 0;
}

/* ---- one of them ---- */

typedef int call(struct caller *caller, struct run run);

/* What pages must be for a call. */
enum needs { HOLE = 1, RANGE = 2, ASIDE = 4, READ = 8, WRITE = 16, FREE_OF_LOCKS = 32, LOCKS = 64, SEVERAL = 128, BEHIND = 256 };

static const struct kind {
    const char *name;
    call *make;
    unsigned needs, weight;
} kinds[] = {
    {"write", write_pages, WRITE, 10},
    {"write-words", write_words, WRITE | READ, 6},
    {"read", read_plain, RANGE, 4},
    {"read-direct", read_direct, RANGE, 6},
    {"write-direct", write_direct, READ | WRITE, 3},
    {"copy-out", copy_out, READ, 2},
    {"copy-in", copy_in, READ | WRITE, 3},
    {"discard", discard, 0, 6},
    {"munmap", unmap, RANGE, 3},
    {"mmap", map_hole, HOLE, 12},
    {"mmap-over", replace, RANGE, 2},
    {"mremap-away", move_away, RANGE, 3},
    {"mremap-back", move_back, ASIDE, 10},
    {"mremap-shrink", shrink, RANGE | SEVERAL, 2},
    {"mremap-grow", grow, HOLE | BEHIND, 4},
    {"mremap-dontunmap", leave_behind, RANGE | FREE_OF_LOCKS | READ | WRITE, 2},
    {"mprotect", protect, 0, 3},
    {"mprotect-back", protect_and_back, READ | WRITE, 3},
    {"mlock", lock, RANGE | READ | WRITE | FREE_OF_LOCKS, 2},
    {"munlock", unlock, LOCKS, 8},
    {"advice", advise, RANGE, 8},
    {"dofork", let_inherit, RANGE, 2},
    {"offer", offer_again, RANGE, 3},
    {"device", use_device, RANGE | READ | WRITE, 8},
};
enum { KINDS = sizeof kinds / sizeof kinds[0] };
static struct { atomic_ulong made, refused; } counts[KINDS];

void calls_print(char *text, size_t room) {
    size_t used = 0;
    *text = 0;
    for (size_t i = 0; i < KINDS && used < room; i++) {
        unsigned long made = atomic_load(&counts[i].made), refused = atomic_load(&counts[i].refused);
        if (made == 0) continue;
        used += (size_t)snprintf(text + used, room - used, "%s%s %lu", used > 0 ? ", " : "", kinds[i].name, made);
        if (refused > 0 && used < room) used += (size_t)snprintf(text + used, room - used, " (%lu refused)", refused);
    }
}

static bool fits(const struct caller *caller, const struct kind *kind, struct run run) {
    const struct page *page = &shadow.pages[run.first];
    unsigned needs = kind->needs;
    if (kind->make == use_device)
        return caller->device.is_there &&
               (caller->device.step != DEVICE_IDLE || (!caller->is_alone && page->place == HERE && page_is_writable(run.first)));
    if ((kind->make == read_direct || kind->make == write_direct) && files.direct < 0) return false;
    if ((needs & HOLE) != 0) {
        if (page->place != GONE) return false;
        return (needs & BEHIND) == 0 || (run.first % CALL_PAGES > 0 && shadow.pages[run.first - 1].place == HERE);
    }
    if (page->place == GONE || ((needs & RANGE) != 0 && page->place != HERE) || ((needs & ASIDE) != 0 && page->place != AWAY))
        return false;
    if (((needs & READ) != 0 && !page_is_readable(run.first)) || ((needs & WRITE) != 0 && !page_is_writable(run.first)))
        return false;
    if (((needs & FREE_OF_LOCKS) != 0 && page->is_locked) || ((needs & LOCKS) != 0 && !page->is_locked)) return false;
    return (needs & SEVERAL) == 0 || run.count > 1;
}

/* A kind of call that fits the pages, by its weight. */
static const struct kind *choose(struct caller *caller, struct run run) {
    unsigned sum = 0;
    for (size_t i = 0; i < KINDS; i++) sum += fits(caller, &kinds[i], run) ? kinds[i].weight : 0;
    uint64_t drawn = draw(&caller->seed, sum);
    for (size_t i = 0; i < KINDS; i++) {
        if (!fits(caller, &kinds[i], run)) continue;
        if (drawn < kinds[i].weight) return &kinds[i];
        drawn -= kinds[i].weight;
    }
    return &kinds[0];
}

static void note_now(struct caller *caller, const char *name, struct run run) {
    atomic_store(&caller->now_first, run.first);
    atomic_store(&caller->now_count, run.count);
    atomic_store(&caller->now, name);
    if (name == NULL) atomic_fetch_add(&caller->calls, 1);
}

void call_random(struct caller *caller, size_t first, size_t most) {
    struct run run = part(run_alike(first, most), CALL_PAGES);
    const struct kind *kind = choose(caller, run);
    note_now(caller, kind->name, run);
    run_check(run, "before a call");
    if (kind->make != use_device) run_note(run, kind->name);
    int status = kind->make(caller, run);
    atomic_fetch_add(&counts[kind - kinds].made, 1);
    if (status != 0) atomic_fetch_add(&counts[kind - kinds].refused, 1);
    run_check(run, kind->name);
    note_now(caller, NULL, run);
}

/* ---- all pages back in their places ---- */

/* Puts pages back in the range, readable, writable and unlocked. */
static void put_back(struct caller *caller, struct run run) {
    if (shadow.pages[run.first].place == AWAY && move_back(caller, run) != 0 &&
        either_munmap(page_at(run.first), bytes_of(run)) == 0)
        run_is_gone(run);
    if (shadow.pages[run.first].place == GONE) map_hole(caller, run);
    if (shadow.pages[run.first].place != HERE) return;
    if (shadow.pages[run.first].is_locked) unlock(caller, run);
    if (shadow.pages[run.first].protection == RIGHTS || either_mprotect(page_at(run.first), bytes_of(run), RIGHTS) != 0) return;
    for (size_t page = run.first; page < run.first + run.count; page++) shadow.pages[page].protection = RIGHTS;
}

/* The range is withdrawn, and all of it is made of one kind, so that it can be one window. */
static void withdraw(struct run all) {
    const int kinds[] = {MADV_UNMERGEABLE, calls_are_of_huge_pages ? MADV_HUGEPAGE : MADV_NOHUGEPAGE, MADV_DODUMP,
                         MADV_KEEPONFORK};
    for (size_t i = 0; i < sizeof kinds / sizeof kinds[0]; i++)
        if (either_madvise(shadow.range, bytes_of(all), kinds[i]) == 0 && kinds[i] == MADV_KEEPONFORK)
            for (size_t page = 0; page < shadow.count; page++) shadow.pages[page].is_wiped = false;
}

/* The range is unmapped, and there is memory again in its place. */
static void begin_anew(struct caller *caller, struct run all) {
    for (size_t page = 0; page < shadow.count; page++)
        if (shadow.pages[page].place == AWAY && either_munmap(page_at(page), PAGE) == 0) run_is_gone((struct run){page, 1});
    if (either_munmap(shadow.range, bytes_of(all)) != 0) return;
    run_is_gone(all);
    put_back(caller, all);
}

void call_write_apart(struct caller *caller) {
    const struct run all = {0, shadow.count};
    note_now(caller, "write-apart", all);
    for (size_t page = 0; page < shadow.count; page++) {
        if (!page_is_writable(page) || shadow.pages[page].is_pinned) continue;
        content_fill(page_wanted(page), (caller->seed & 0xffffff) + CONTENTS + page);
        shadow.pages[page].may_be_zero = false;
        memcpy(page_at(page), page_wanted(page), PAGE);
    }
    run_check(all, "after all is written");
    note_now(caller, NULL, all);
}

void call_restore(struct caller *caller) {
    const struct run all = {0, shadow.count};
    struct run run;
    note_now(caller, "restore", all);
    run_check(all, "before all is restored");
    uint64_t way = draw(&caller->seed, calls_are_of_huge_pages ? 2 : 3);
    if (way == 0) begin_anew(caller, all);
    for (size_t page = 0; page < shadow.count; page += run.count) {
        run = run_alike(page, shadow.count);
        put_back(caller, run);
    }
    if (way == 1) withdraw(all);
    offer(all);
    for (size_t page = 0; page < shadow.count; page++)
        if (page_is_writable(page) && draw(&caller->seed, 4) > 0) write_pages(caller, (struct run){page, 1});
    run_check(all, "after all is restored");
    note_now(caller, NULL, all);
}
