/*
 * What becomes of pages, one matter after the other: see main. Prints "pages: ok" (status 0) or what isn't so (status 1).
 */
#define _GNU_SOURCE
#include "fixture.h"
#include "ring.h"
#include <errno.h>
#include <sys/resource.h>
#include <sys/syscall.h>
#include <sys/wait.h>

enum { PAGES = 64 };

/* Equal pages are lent, a write makes a copy, the copy is found, released, and lent again when it is equal once more. */
static void lives(void) {
    FIXTURE(&never_pinned, PAGES, PAGES);
    struct pageshare_domain_totals totals;
    struct lender_counts counts;
    fill(at, PAGES, PAGES / 2);
    check(look_until(&fixture, PAGES) == PAGES, "all pages are lent");
    lender_count(fixture.lender, &totals, &counts);
    check(totals.frames == PAGES / 2 && totals.slots == PAGES, "two pages have a frame");
    check(counts.frame_bytes <= (PAGES / 2 + 1) * PAGE, "the file holds so many, and perhaps the spare one");
    for (size_t i = 0; i < PAGES; i++) check(are_bytes(at + i * PAGE, (int)(i % (PAGES / 2) + 1)), "a lent page reads as before");
    at[5 * PAGE] = 99;
    check(at[5 * PAGE] == 99 && at[(5 + PAGES / 2) * PAGE] == 6, "a write changes one page");
    must(look(fixture.windows), "windows_look");
    check(counts_of(&fixture).lent == PAGES - 1 && counts_of(&fixture).copied == 1, "the next look finds the copy");
    lender_count(fixture.lender, &totals, &counts);
    check(totals.slots == PAGES - 1, "and its slot is released");
    at[5 * PAGE] = 6;
    check(look_until(&fixture, PAGES) == PAGES, "a copy that is equal again is lent again");
    must(window_free(window, WINDOW_TAKE_HOME), "window_free");
    for (size_t i = 0; i < PAGES; i++)
        check(are_bytes(at + i * PAGE, (int)(i % (PAGES / 2) + 1)), "what is home reads as before");
    fixture_free(&fixture);
    for (size_t i = 0; i < PAGES; i++) check(are_bytes(at + i * PAGE, (int)(i % (PAGES / 2) + 1)), "without a lender, too");
    munmap(at, PAGES * PAGE);
}

/* Zeros go back to the system, and pages that nobody else has stay where they are. */
static void zeros_and_singles(void) {
    FIXTURE(&never_pinned, PAGES, PAGES);
    fill(at, PAGES, PAGES);
    memset(at, 0, PAGES / 2 * PAGE);
    look_often(&fixture, 20);
    struct windows_counts counts = counts_of(&fixture);
    check(counts.lends == 0 && counts.zeros == PAGES / 2, "zeros are given back, and nothing is lent");
    bool scans = fixture.windows->pagemap.scans; /* (else the kernel's page of zeros looks like memory) */
    check(!(scans && takes_memory(&fixture, at)) && takes_memory(&fixture, at + PAGES / 2 * PAGE), "zeros take no memory");
    check(are_bytes(at, 0) && are_bytes(at + (PAGES - 1) * PAGE, PAGES), "all read as before");
    fixture_end(&fixture, window);
}

/* Numbers that are out of a window change nothing. */
static void bounds(void) {
    struct fixture fixture = fixture_make(&never_pinned, PAGES);
    uint8_t *at = memory(PAGES + 1);
    struct window *window = window_over(&fixture, at, PAGES), *other;
    memset(at + PAGES * PAGE, 7, PAGE);
    const size_t firsts[] = {PAGES, 0, PAGES - 1, SIZE_MAX, 2, SIZE_MAX / PAGE}, counts[] = {1, PAGES + 1, 2, 2, SIZE_MAX, 3};
    for (size_t i = 0; i < sizeof firsts / sizeof firsts[0]; i++) {
        check(window_discard(window, firsts[i], counts[i]).status == WINDOW_BAD_RANGE, "window_discard refuses what is outside");
        check(window_cut(window, firsts[i], counts[i], NULL).status == WINDOW_BAD_RANGE, "window_cut refuses it");
    }
    check(window_page_is(window, PAGES) == WINDOW_PAGE_OUT, "no page is behind the last one");
    check(are_bytes(at + PAGES * PAGE, 7), "what is behind the window is as it was");
    check(window_make(&other, fixture.windows, at + PAGE, PAGE, 0).status == WINDOW_BAD_RANGE && other == NULL,
          "windows don't overlap");
    check(window_make(&other, fixture.windows, at + 1, PAGE, 0).status == WINDOW_BAD_RANGE, "a window begins with a page");
    check(window_make(&other, fixture.windows, at, PAGE + 1, 0).status == WINDOW_BAD_RANGE, "and ends with one");
    struct window_lender bad = *lender_interface(fixture.lender);
    check(windows_attach(fixture.windows, &bad).status == WINDOW_HAS_LENDER, "there is one lender at a time");
    const struct lender_config few = {.slots = PAGES, .frames = 1, .recent = PAGES, .hash = PAGESHARE_FOLD};
    struct lender *none;
    struct lender_result refused = lender_make(&none, &few);
    check(refused.status == LENDER_REFUSED && refused.cause == PAGESHARE_ERROR_FRAMES && none == NULL,
          "a limit is reported as what it is");
    windows_detach(fixture.windows);
    bad.frame_count = WINDOW_FRAMES_MOST;
    check(windows_attach(fixture.windows, &bad).status == WINDOW_BAD_LENDER, "its file has all its frames");
    must(windows_attach(fixture.windows, lender_interface(fixture.lender)), "windows_attach");
    fixture_end(&fixture, window);
    void *shared = mmap(NULL, PAGE, PROT_READ | PROT_WRITE, MAP_SHARED | MAP_ANONYMOUS, -1, 0);
    struct windows *windows;
    must(windows_make(&windows, &never_pinned), "windows_make");
    check(window_make(&other, windows, shared, PAGE, 0).status == WINDOW_BAD_MEMORY, "shared memory is no window");
    windows_free(windows);
}

/* A page that was copied lies over a frame, which may hold another guest's bytes by now. A discard shows zeros. */
static void discards(void) {
    struct fixture fixture = fixture_make(&never_pinned, 4);
    uint8_t *at = memory(4);
    struct window *window = window_over(&fixture, at, 2), *other = window_over(&fixture, at + 2 * PAGE, 2);
    memset(at, 'a', 2 * PAGE);
    check(look_until(&fixture, 2) == 2, "two pages have a frame");
    at[0] = 'A', at[PAGE] = 'A';
    look_often(&fixture, 1);
    memset(at + 2 * PAGE, 's', 2 * PAGE); /* (their frame is the one that is free now) */
    check(look_until(&fixture, 2) == 2 || look_until(&fixture, 4) == 4, "two other pages have a frame");
    must(window_discard(window, 0, 2), "window_discard");
    check(are_bytes(at, 0) && are_bytes(at + PAGE, 0), "a discard shows zeros");
    look_often(&fixture, 2);
    check(are_bytes(at, 0) && are_bytes(at + 2 * PAGE, 's'), "and goes on to");
    must(window_free(window, WINDOW_DROP), "window_free");
    must(window_free(other, WINDOW_DROP), "window_free");
    fixture_free(&fixture);
}

/* What a device reads into a page that it has pinned is what is read there. */
static void pinned(void) {
    FIXTURE(&maybe_pinned, PAGES, PAGES);
    struct ring ring;
    int disk = file_of('d');
    fill(at, PAGES, 1);
    if (!ring_pin(&ring, at, PAGE)) {
        puts("left out: pages that a device has pinned, since there is no io_uring");
    } else {
        size_t lent = look_until(&fixture, PAGES - 1);
        if (lent == 0) puts("(pages can't be moved here, so none is lent where devices may pin)");
        check(lent == PAGES - 1 || lent == 0, "all pages but the pinned one are lent");
        check(ring_read(&ring, disk, at, PAGE) && are_bytes(at, 'd'), "what the device reads arrives");
        ring_unpin(&ring);
        at[PAGE] = 1, at[2 * PAGE] = 2; /* (copies, which might be pinned) */
        look_often(&fixture, 12);
        check(window_page_is(window, 1) == WINDOW_PAGE_PRIVATE, "a copy stays private where devices may pin");
    }
    windows_set_pins(fixture.windows, WINDOWS_PINS_NEVER);
    fill(at, PAGES, 1);
    check(look_until(&fixture, PAGES) == PAGES, "where they never do it is lent");
    const struct windows_transfer first = windows_transfer_begin(fixture.windows, &(struct iovec){at + 8 * PAGE, PAGE}, 1);
    const struct windows_transfer second = windows_transfer_begin(fixture.windows, &(struct iovec){at + 8 * PAGE, 2 * PAGE}, 1);
    memset(at + 8 * PAGE, 2, 2 * PAGE);
    if (ring_pin(&ring, at + 8 * PAGE, PAGE)) {
        look_often(&fixture, 8);
        check(ring_read(&ring, disk, at + 8 * PAGE, PAGE) && are_bytes(at + 8 * PAGE, 'd'), "what is read in a transfer arrives");
        ring_unpin(&ring);
    }
    check(window_free(window, WINDOW_TAKE_HOME).status == WINDOW_PINNED, "a window isn't taken home in a transfer");
    windows_transfer_end(fixture.windows, first);
    memset(at + 8 * PAGE, 1, 2 * PAGE);
    look_often(&fixture, 12);
    check(window_page_is(window, 8) == WINDOW_PAGE_PRIVATE, "a page of two transfers isn't lent before both have ended");
    windows_transfer_end(fixture.windows, second);
    check(look_until(&fixture, PAGES) == PAGES, "then it is lent");
    close(disk);
    fixture_end(&fixture, window);
}

/* The line of flags of a mapping, from /proc/self/smaps. */
static void flags_of(const uint8_t *at, char *flags, size_t most) {
    char line[512];
    uintptr_t begin, end;
    bool here = false;
    FILE *file = fopen("/proc/self/smaps", "r");
    *flags = 0;
    while (file != NULL && fgets(line, sizeof line, file) != NULL) {
        if (sscanf(line, "%lx-%lx ", &begin, &end) == 2) here = (uintptr_t)at >= begin && (uintptr_t)at < end;
        if (here && strncmp(line, "VmFlags:", 8) == 0) snprintf(flags, most, "%s", line + 8);
    }
    if (file != NULL) fclose(file);
}

static bool has_flags(const uint8_t *at, const char *wanted) {
    char flags[512];
    flags_of(at, flags, sizeof flags);
    for (size_t i = 0; i + 1 < strlen(wanted); i += 3) {
        const char flag[4] = {' ', wanted[i], wanted[i + 1], 0};
        if (strstr(flags, flag) == NULL) return false;
    }
    return true;
}

static int policy_of(const uint8_t *at) {
    int mode = -1;
    unsigned long nodes[16];
    return syscall(SYS_get_mempolicy, &mode, nodes, 1024ul, at, 2) == 0 ? mode : -1;
}

/* What was said of the range holds while pages are lent, discarded and home again. */
static void advice(void) {
    struct fixture fixture = fixture_make(&never_pinned, PAGES);
    uint8_t *at = memory(PAGES);
    const unsigned long node = 1;
    madvise(at, PAGES * PAGE, MADV_DONTDUMP);
    madvise(at, PAGES * PAGE, MADV_WIPEONFORK);
    madvise(at, PAGES * PAGE, MADV_NOHUGEPAGE);
    bool merges = madvise(at, PAGES * PAGE, MADV_MERGEABLE) == 0;
    bool binds = syscall(SYS_mbind, at, PAGES * PAGE, 2 /* MPOL_BIND */, &node, 2ul, 0) == 0;
    if (!binds) puts("left out: memory policies, which this system refuses");
    struct window *window = window_over(&fixture, at, PAGES);
    fill(at, PAGES, 1);
    check(look_until(&fixture, PAGES) == PAGES, "all pages are lent");
    check(!has_flags(at, "mg") && !has_flags(at + PAGE, "mg"), "the kernel's KSM leaves a window alone");
    check(has_flags(at, "dd dc nh"), "a lent page isn't dumped, has no huge pages, and no child has it");
    check(!binds || policy_of(at) == 0, "the file of frames gets no memory policy");
    must(window_discard(window, 3, 1), "window_discard");
    check(has_flags(at + 3 * PAGE, "dd dc nh wf"), "the same of a discarded page");
    must(window_free(window, WINDOW_TAKE_HOME), "window_free");
    check(has_flags(at, merges ? "dd dc nh wf mg" : "dd dc nh wf"), "and of one that is home");
    check(!binds || policy_of(at) == 2, "its memory policy, too");
    fixture_free(&fixture);
}

/* A range that a child would have isn't lent until no child has it. */
static void children(void) {
    struct fixture fixture = fixture_make(&never_pinned, PAGES);
    uint8_t *at = memory(PAGES);
    struct window *window;
    must(window_make(&window, fixture.windows, at, PAGES * PAGE, 0), "window_make");
    fill(at, PAGES, 1);
    look_often(&fixture, 12);
    check(counts_of(&fixture).lends == 0, "nothing is lent that a child would have");
    must(window_advise(window, MADV_DONTFORK), "window_advise");
    check(look_until(&fixture, PAGES) == PAGES, "what no child has is lent");
    must(window_advise(window, MADV_DOFORK), "window_advise");
    check(counts_of(&fixture).lent == 0, "for a child all is taken home");
    pid_t child = fork();
    if (child == 0) _exit(are_bytes(at + PAGE, 1) ? 0 : 1);
    int status = -1;
    check(child > 0 && waitpid(child, &status, 0) == child && status == 0, "the child reads what is its parent's");
    check(window_advise(window, MADV_SEQUENTIAL).status == WINDOW_ADVICE, "other advice is refused");
    fixture_end(&fixture, window);
}

/* Whether nothing keeps a window's first page from being lent, as far as the library heard. */
static bool is_unbarred(const struct window *window) {
    lock_set(window->windows);
    const bool is = MAY(window, 0, 1, .kind = PAGESHARE_PROCESS_EXCHANGE);
    unlock_set(window->windows);
    return is;
}

/* Whether that page, which has a copy of its own over a frame, stays there, as a device may have pinned it. */
static bool stays(const struct window *window) {
    static const struct pageshare_window_facts none;
    bool is_copy = true;
    lock_set(window->windows);
    check(pageshare_process_find_staying(OF(window), &none, 0, &is_copy, 1), "it is found whether a page stays");
    unlock_set(window->windows);
    return is_copy;
}

/* The library hears at once what is so of windows. */
static void heard(void) {
    FIXTURE(&never_pinned, PAGES, PAGES);
    struct windows *windows = fixture.windows;
    fill(at, PAGES, 1);
    check(look_until(&fixture, PAGES) == PAGES, "all pages are lent");
    at[0] = 9;
    look(windows);
    check(is_unbarred(window) && !stays(window), "nothing bars a page at first");
    windows_set_pins(windows, WINDOWS_PINS_POSSIBLE);
    check(stays(window), "devices may pin");
    windows_set_pins(windows, WINDOWS_PINS_NEVER);
    check(!stays(window), "or not any longer");
    check(windows_watch(windows) == 0 && !is_unbarred(window), "a userfaultfd of the caller's may watch");
    windows_watch_made(windows);
    look(windows);
    check(is_unbarred(window), "or doesn't");
    must(window_advise(window, MADV_DOFORK), "window_advise");
    check(!is_unbarred(window), "a child may have it");
    must(window_advise(window, MADV_DONTFORK), "window_advise");
    check(is_unbarred(window), "or not any longer");
    windows_end(windows);
    check(!is_unbarred(window), "lending has ended");
    fixture_end(&fixture, window);
}

/* Locked memory: the kernel would copy each frame that is mapped. */
static void locked(void) {
    struct fixture fixture = fixture_make(&never_pinned, PAGES);
    uint8_t *at = memory(PAGES);
    struct window *window = window_over(&fixture, at, PAGES), *other;
    fill(at, PAGES, 1);
    check(look_until(&fixture, PAGES) == PAGES, "all pages are lent");
#ifdef __SANITIZE_ADDRESS__
    const bool can_lock = false; /* (the sanitizer doesn't pass the call on) */
#else
    const bool can_lock = mlockall(MCL_CURRENT | MCL_FUTURE) == 0;
#endif
    if (!can_lock) {
        puts("left out: locked memory, which this user may not have, or the sanitizer");
    } else {
        check(look(fixture.windows).status == WINDOW_LOCKED, "the look says that memory is locked");
        check(counts_of(&fixture).pause == WINDOWS_LOCKED && counts_of(&fixture).lent == 0, "nothing is lent any more");
        check(!is_unbarred(window), "nor may it be");
        check(are_bytes(at + 3 * PAGE, 1), "and all is as it was");
        uint8_t *more = memory(1);
        check(window_make(&other, fixture.windows, more, PAGE, WINDOW_NO_CHILD).status == WINDOW_LOCKED,
              "locked memory is no window");
        struct windows *windows;
        check(windows_make(&windows, &never_pinned).status == WINDOW_LOCKED && windows == NULL, "nor are there new sets");
        munlockall();
        check(look_until(&fixture, PAGES) == PAGES, "when nothing is locked all is lent again");
    }
    fixture_end(&fixture, window);
}

/* So many files may be open from now on. Returns how many might be. */
static rlim_t limit_files(rlim_t most) {
    struct rlimit files;
    check(getrlimit(RLIMIT_NOFILE, &files) == 0, "a limit of open files");
    rlim_t before = files.rlim_cur;
    files.rlim_cur = most;
    check(setrlimit(RLIMIT_NOFILE, &files) == 0, "another limit of open files");
    return before;
}

/* Where the system doesn't tell whether memory is locked, what was known of it counts still. */
static void locked_unseen(void) {
    FIXTURE(&never_pinned, PAGES, PAGES);
    fill(at, PAGES, 1);
    if (mlock(at, PAGE) != 0 || look(fixture.windows).status != WINDOW_LOCKED) {
        puts("left out: memory whose lock isn't seen, which this user may not lock, or the sanitizer");
    } else {
        rlim_t files = limit_files(0);
        struct window_result result = look(fixture.windows);
        look_often(&fixture, 10);
        limit_files(files);
        check(result.status == WINDOW_NO_PAGEMAP && result.cause == EMFILE, "a look says that it can't read that");
        check(counts_of(&fixture).lent == 0 && counts_of(&fixture).pause == WINDOWS_LOCKED, "locked memory isn't lent");
        munlock(at, PAGE);
        check(look_until(&fixture, PAGES) == PAGES, "when it isn't locked it is lent");
    }
    fixture_end(&fixture, window);
}

/* How many pages have memory of their own. */
static size_t own_pages(const uint8_t *at, size_t pages) {
    struct pagemap pagemap;
    uint8_t found[PAGEMAP_MOST];
    bool is_huge;
    size_t own = 0;
    check(pagemap_open(&pagemap, true) == 0, "pagemap");
    for (size_t page = 0; page < pages; page += PAGEMAP_MOST) {
        size_t count = pages - page < PAGEMAP_MOST ? pages - page : PAGEMAP_MOST;
        check(pagemap_find(&pagemap, at + page * PAGE, count, NULL, found, &is_huge) == 0, "pages are found");
        for (size_t i = 0; i < count; i++) own += found[i] == PAGE_NONE ? 0 : 1;
    }
    close(pagemap.fd);
    return own;
}

/* Huge pages are split, so that what is lent of them is given back. */
static void huge(bool never_move) {
    enum { HUGE_PAGES = 4096, HUGE_BYTES = 2 << 20 };
    const struct windows_config config = {.pins = WINDOWS_PINS_NEVER, .never_move = never_move};
    struct fixture fixture = fixture_make(&config, PAGES);
    uint8_t *found = memory(HUGE_PAGES + HUGE_BYTES / PAGE);
    uint8_t *at = found + (HUGE_BYTES - (uintptr_t)found % HUGE_BYTES) % HUGE_BYTES;
    madvise(at, HUGE_PAGES * PAGE, MADV_HUGEPAGE);
    memset(at, 3, HUGE_PAGES * PAGE);
    long huge_kib = number_in("/proc/self/smaps_rollup", "AnonHugePages:");
    long split = number_in("/proc/vmstat", "thp_split_page ");
    struct window *window = window_over(&fixture, at, HUGE_PAGES);
    if (huge_kib < HUGE_PAGES * 4) {
        puts("left out: huge pages, of which this system gave none");
    } else {
        for (size_t i = 0; i < HUGE_PAGES; i += 8) at[i * PAGE] = (uint8_t)(i / 8), at[i * PAGE + 1] = (uint8_t)(i / 2048 + 20);
        size_t lent = look_until(&fixture, HUGE_PAGES / 8 * 7);
        check(lent == HUGE_PAGES / 8 * 7, "seven of eight pages are lent");
        check(own_pages(at, HUGE_PAGES) == HUGE_PAGES / 8, "the others alone have memory of their own");
        check(number_in("/proc/self/smaps_rollup", "AnonHugePages:") == 0, "and no huge page is left");
        check(number_in("/proc/vmstat", "thp_split_page ") - split >= HUGE_PAGES / 512,
              "at once, since the huge pages are split");
        check(at[8 * PAGE] == 1 && at[9 * PAGE] == 3, "each page reads as before");
    }
    must(window_free(window, WINDOW_DROP), "window_free");
    check(has_flags(at, "hg"), "the range may have huge pages again");
    munmap(found, (HUGE_PAGES + HUGE_BYTES / PAGE) * PAGE);
    fixture_free(&fixture);
}

/* A guest ends: nothing of it becomes private, and the others go on. */
static void ends(void) {
    enum { MANY = 8192 };
    struct fixture fixture = fixture_make(&never_pinned, MANY + 16);
    uint8_t *at[3];
    struct window *window[3];
    for (int i = 0; i < 3; i++) {
        at[i] = memory(MANY);
        window[i] = window_over(&fixture, at[i], MANY);
        for (uint32_t page = 0; page < MANY; page++) memcpy(at[i] + (size_t)page * PAGE, &(uint32_t){page + 1}, 4);
    }
    check(look_until(&fixture, 3 * MANY) == 3 * MANY, "all pages of three guests are lent");
    must(window_free(window[1], WINDOW_DROP), "window_free");
    check(own_pages(at[1], MANY) == 0, "a guest that ends takes no memory");
    check(are_bytes(at[1] + PAGE, 0), "its range is zeros");
    must(look(fixture.windows), "windows_look");
    check(counts_of(&fixture).lent == 2 * MANY && counts_of(&fixture).windows == 2, "the others' pages are lent still");
    struct window *anew = window_over(&fixture, at[1], MANY);
    for (uint32_t page = 0; page < MANY; page++) memcpy(at[1] + (size_t)page * PAGE, &(uint32_t){page + 1}, 4);
    check(look_until(&fixture, 3 * MANY) == 3 * MANY, "a new guest is lent like the first");
    must(window_free(anew, WINDOW_DROP), "window_free");
    must(window_free(window[0], WINDOW_DROP), "window_free");
    must(window_free(window[2], WINDOW_DROP), "window_free");
    fixture_free(&fixture);
}

/* Mappings are counted as the system counts them, and lending ends if they would be too many. */
static void mappings(void) {
    enum { MANY = 4096, MOST = 1500 };
    const struct windows_config config = {.pins = WINDOWS_PINS_NEVER, .mappings_most = MOST};
    FIXTURE(&config, MANY, MANY);
    for (uint32_t page = 0; page < MANY; page++) /* (pages that nobody else has lie between those that are lent) */
        memcpy(at + (size_t)page * PAGE, &(uint32_t){page % 2 == 0 ? page % 64 + 1 : page + 1000}, 4);
    look_often(&fixture, 20);
    struct windows_counts counts = counts_of(&fixture);
    size_t found = mappings_in(at, MANY);
    check(counts.lent > 100 && counts.lent < MANY && counts.pause == WINDOWS_CROWDED, "lending ends before all pages are lent");
    check(counts.mappings <= MOST && found <= MOST, "there are no more mappings than there may be");
    check(counts.mappings <= found + 16 && found <= counts.mappings + 16, "as many are counted as the system has");
    must(window_discard(window, 0, MANY), "window_discard");
    must(look(fixture.windows), "windows_look");
    check(counts_of(&fixture).mappings == 1 && mappings_in(at, MANY) <= 2, "discarded pages are one mapping");
    fixture_end(&fixture, window);
}

/* Zeroes every other page of a window, or gives it up. */
static void zero_every_other(struct window *window, size_t from, size_t pages, bool are_given_up) {
    for (size_t page = from; page < pages; page += 2) {
        if (are_given_up) must(window_discard(window, page, 1), "window_discard");
        else memset(window->at + page * PAGE, 0, PAGE);
    }
}

/*
 * Those that are left to the monitor stay so, whatever a guest zeroes or gives up: without one a page keeps its zeros, or is cleared. What
 * was given up is missing all the same once it is home, or is given back.
 */
static void mappings_left(bool are_given_up) {
    enum { HALF = 1024, MANY = 2 * HALF, MOST = 512 };
    const struct windows_config config = {.pins = WINDOWS_PINS_NEVER, .mappings_most = MOST};
    FIXTURE(&config, MANY, MANY);
    for (uint32_t page = 0; page < MANY; page++) memcpy(at + (size_t)page * PAGE, &(uint32_t){page % HALF + 1}, 4);
    check(look_until(&fixture, MANY) == MANY, "all pages are lent, in runs");
    zero_every_other(window, 0, MANY, are_given_up);
    look_often(&fixture, 20);
    struct windows_counts counts = counts_of(&fixture);
    check(counts.mappings <= MOST && mappings_in(at, MANY) <= MOST, "zeros take no more mappings than there may be");
    check(counts.pause == WINDOWS_CROWDED && counts.lent == HALF, "and no page of the others is lost for that");
    zero_every_other(window, 1, HALF, true);
    for (int i = 0; i < 2; i++) must(window_discard(window, 0, HALF - 8), "window_discard");
    look_often(&fixture, 20);
    check(is_missing(at + (HALF - 2) * PAGE) == are_given_up, "what is given back is missing if it was given up");
    must(window_free(window, WINDOW_TAKE_HOME), "window_free");
    bool are_right = true, are_missing = true;
    for (uint32_t page = 0; page < MANY; page++) {
        uint32_t wanted = page % 2 == 0 || page < HALF ? 0 : page % HALF + 1;
        if (wanted == 0 && are_given_up) are_missing = are_missing && is_missing(at + (size_t)page * PAGE);
        are_right = are_right && memcmp(at + (size_t)page * PAGE, &wanted, 4) == 0;
    }
    check(are_right, "each page reads as it should");
    check(are_missing, "what was given up is missing when it is home");
    fixture_free(&fixture);
    munmap(at, MANY * PAGE);
}

/* Zeros that are put between memory of the window's own are joined with it, whether it is reserved or not: as many mappings are counted. */
static void mappings_of_kinds(int flags) {
    enum { MANY = 512 };
    struct fixture fixture = fixture_make(&never_pinned, MANY);
    uint8_t *at = mmap(NULL, MANY * PAGE, PROT_READ | PROT_WRITE, MAP_PRIVATE | MAP_ANONYMOUS | flags, -1, 0);
    struct window *window = window_over(&fixture, at, MANY);
    for (uint32_t page = 0; page < MANY; page++)
        memcpy(at + (size_t)page * PAGE, &(uint32_t){page % 2 == 0 ? 1 : page + 1000}, 4);
    check(look_until(&fixture, MANY / 2) == MANY / 2, "every other page is lent");
    zero_every_other(window, 0, MANY, true);
    check(mappings_in(at, MANY) <= counts_of(&fixture).mappings + 2, "zeros are joined with what is beside them");
    must(window_free(window, WINDOW_TAKE_HOME), "window_free");
    fixture_free(&fixture);
    munmap(at, MANY * PAGE);
}

/*
 * Zeros that are given back, from memory of their own or from copies over frames, have the kernel's page in their place: a monitor that
 * watches for missing pages later, as for a postcopy, takes them for there. What it gave up is missing.
 */
static void zeros_are_there(bool never_move) {
    const struct windows_config config = {.pins = WINDOWS_PINS_NEVER, .never_move = never_move};
    FIXTURE(&config, PAGES, PAGES);
    fill(at, PAGES, PAGES / 4);
    memset(at, 0, PAGES / 4 * PAGE);
    look_until(&fixture, PAGES * 3 / 4);
    memset(at + PAGES / 2 * PAGE, 0, PAGES / 4 * PAGE);
    must(window_discard(window, 1, 1), "window_discard");
    must(window_discard(window, PAGES - 1, 1), "window_discard");
    for (int i = 0; i < 40 && counts_of(&fixture).zeros < PAGES / 2; i++) look(fixture.windows);
    check(counts_of(&fixture).zeros == PAGES / 2 && counts_of(&fixture).lent == PAGES / 2 - 1, "zeros are given back");
    must(window_free(window, WINDOW_TAKE_HOME), "window_free");
    for (size_t page = 0; page < PAGES; page++)
        check(is_missing(at + page * PAGE) == (page == 1 || page == PAGES - 1), "only what was given up is missing");
    fixture_free(&fixture);
    munmap(at, PAGES * PAGE);
}

/* None is left out where pages are given up one by one, and written, between others that are lent: each is a mapping by itself. */
static void mappings_one_by_one(void) {
    enum { MANY = 1024 };
    FIXTURE(&never_pinned, MANY, MANY);
    fill(at, MANY, 1);
    check(look_until(&fixture, MANY) == MANY, "all pages are lent");
    for (size_t odd = 0; odd < 2; odd++)
        for (size_t page = odd; page < MANY; page += 2) {
            must(window_discard(window, page, 1), "window_discard");
            at[page * PAGE] = 1;
        }
    check(counts_of(&fixture).mappings >= mappings_in(at, MANY), "as many are counted as the system has, or more");
    must(window_discard(window, 0, MANY), "window_discard");
    fixture_end(&fixture, window);
}

/* Nor where zeros between others that are lent are given back, and written then. */
static void mappings_of_zeros(void) {
    enum { MANY = 256 };
    const struct windows_config config = {.pins = WINDOWS_PINS_NEVER, .never_move = true};
    FIXTURE(&config, MANY, MANY);
    for (size_t page = 0; page < MANY; page++) memset(at + page * PAGE, page % 2 == 0 ? 1 : (int)(page / 2), PAGE);
    check(look_until(&fixture, MANY / 2) == MANY / 2, "every other page is lent");
    for (size_t page = 1; page < MANY; page += 2) memset(at + page * PAGE, 0, PAGE);
    for (int i = 0; i < 40 && counts_of(&fixture).zeros_now < MANY / 2; i++) look(fixture.windows);
    check(counts_of(&fixture).zeros_now == MANY / 2, "the others are given back");
    for (size_t page = 1; page < MANY; page += 2) at[page * PAGE] = 1;
    for (size_t page = 0; page < MANY; page += 2) {
        must(window_discard(window, page, 1), "window_discard");
        at[page * PAGE] = 1;
    }
    check(counts_of(&fixture).mappings >= mappings_in(at, MANY), "as many are counted as the system has, or more, of zeros");
    fixture_end(&fixture, window);
}

/* Nor where a window consists of several mappings when it is made, which the system doesn't join. */
static void mappings_from_the_beginning(void) {
    struct fixture fixture = fixture_make(&never_pinned, PAGES);
    uint8_t *at = memory(PAGES);
    madvise(at, PAGES / 2 * PAGE, MADV_DONTDUMP);
    for (size_t page = 0; page < PAGES; page++) memset(at + page * PAGE, (int)page + 1, PAGE);
    madvise(at, PAGES / 2 * PAGE, MADV_DODUMP);
    size_t before = counts_of(&fixture).mappings;
    struct window *window = window_over(&fixture, at, PAGES);
    check(mappings_in(at, PAGES) == 2 && counts_of(&fixture).mappings == before + 2,
          "as many are counted as a window begins with");
    must(window_free(window, WINDOW_DROP), "window_free");
    check(counts_of(&fixture).mappings == before, "and none when it has ended");
    fixture_free(&fixture);
}

/* Another userfaultfd has a part of the window: its pages aren't held, the others are. */
static void second_userfaultfd(void) {
    FIXTURE(&never_pinned, PAGES, PAGES);
    struct faults other;
    fill(at, PAGES, 1);
    check(faults_open(&other, 0, false) == 0, "a second userfaultfd");
    check(faults_watch(&other, at, PAGES / 2, FAULTS_OF_WRITES) == 0, "it has a part of the window");
    look_often(&fixture, 16);
    check(counts_of(&fixture).lent < PAGES && are_bytes(at, 1), "nothing is lost");
    check(faults_end_watch(&other, at, PAGES / 2) == 0, "it leaves it");
    close(other.fd);
    check(look_until(&fixture, PAGES) == PAGES, "then all is lent");
    fixture_end(&fixture, window);
}

/* What is found of each kind of page: a guard's own mark is no copy. */
static void marks(bool never_scan) {
    enum { KINDS = 8 };
    const uint8_t wanted[KINDS] = {PAGE_NONE, PAGE_NONE, PAGE_PRESENT, PAGE_NONE, PAGE_NONE, PAGE_NONE, PAGE_PRESENT, PAGE_NONE};
    struct pagemap pagemap;
    struct faults faults;
    uint8_t found[KINDS], again[KINDS];
    int fd = memfd_create("frames", MFD_CLOEXEC);
    check(fd >= 0 && ftruncate(fd, KINDS * PAGE) == 0, "a file");
    uint8_t *at = mmap(NULL, KINDS * PAGE, PROT_READ | PROT_WRITE, MAP_PRIVATE, fd, 0);
    check(pagemap_open(&pagemap, never_scan) == 0 && faults_open(&faults, 0, false) == 0, "pagemap and userfaultfd");
    madvise(at, KINDS * PAGE, MADV_RANDOM);
    check(faults_watch(&faults, at, KINDS, FAULTS_OF_WRITES) == 0, "the pages can be guarded");
    volatile uint8_t read = at[1 * PAGE]; /* (a frame that was read) */
    at[2 * PAGE] = 1;                     /* a copy */
    read = at[4 * PAGE], read = at[5 * PAGE], (void)read;
    for (size_t page = 3; page < 6; page++) check(faults_protect(&faults, at + page * PAGE, 1) == 0, "a guard");
    fallocate(fd, FALLOC_FL_PUNCH_HOLE | FALLOC_FL_KEEP_SIZE, 5 * PAGE, PAGE); /* (leaves a mark) */
    at[6 * PAGE] = 1;
    fallocate(fd, FALLOC_FL_PUNCH_HOLE | FALLOC_FL_KEEP_SIZE, 6 * PAGE, PAGE);
    bool is_huge, over[KINDS];
    memset(over, true, sizeof over);
    check(pagemap_find(&pagemap, at, KINDS, over, again, &is_huge) == 0, "pages over a file's are found");
    check(pagemap_find(&pagemap, at, KINDS, NULL, found, &is_huge) == 0, "pages are found");
    for (size_t page = 0; page < KINDS; page++) {
        check(found[page] == wanted[page] && again[page] == wanted[page], "each kind of page is found as what it is");
        check(pagemap_is_own(&pagemap, at + page * PAGE) == (wanted[page] != PAGE_NONE), "in both ways");
    }
    close(faults.fd), close(pagemap.fd), close(fd);
    munmap(at, KINDS * PAGE);
}

/* A lender that goes away, and another that comes. */
static int no_answer(void *opaque, const uint64_t *slots, size_t count) {
    (void)opaque, (void)slots, (void)count;
    return ENOTCONN;
}

static void lenders(void) {
    FIXTURE(&never_pinned, PAGES, PAGES);
    fill(at, PAGES, 2);
    check(look_until(&fixture, PAGES) == PAGES, "all pages are lent");
    must(window_discard(window, PAGES - 1, 1), "window_discard");
    check(counts_of(&fixture).lent == PAGES - 1 && slots_of(&fixture) == PAGES,
          "the slot of a page that was given up isn't released yet");
    memset(at + (PAGES - 1) * PAGE, 2, PAGE);
    windows_detach(fixture.windows);
    lender_free(fixture.lender);
    check(are_bytes(at, 1) && are_bytes(at + PAGE, 2), "pages read as before when their lender is gone");
    at[0] = 9;
    must(look(fixture.windows), "windows_look");
    check(counts_of(&fixture).pause == WINDOWS_NO_LENDER, "the set says that it has none");
    const struct lender_config lending = {.slots = PAGES, .frames = PAGES, .recent = PAGES * 4, .hash = PAGESHARE_FOLD};
    check(lender_make(&fixture.lender, &lending).status == LENDER_OK, "another lender");
    struct window_lender silent = *lender_interface(fixture.lender);
    silent.release = no_answer;
    must(windows_attach(fixture.windows, &silent), "windows_attach");
    check(look_until(&fixture, PAGES - 1) == PAGES - 1, "its frames take the place of the first one's");
    at[PAGE] = 9;
    struct window_result result = look(fixture.windows);
    check(result.status == WINDOW_LENDER_FAILED && result.cause == ENOTCONN, "a lender that doesn't answer is reported");
    check(at[PAGE] == 9 && at[3 * PAGE] == 2, "and nothing is lost");
    windows_detach(fixture.windows);
    must(window_free(window, WINDOW_TAKE_HOME), "window_free");
    check(at[0] == 9 && at[2 * PAGE] == 1, "all comes home without a lender");
    windows_free(fixture.windows);
    lender_free(fixture.lender);
}

static uint64_t held_by(const struct fixture *fixture) {
    struct windows_counts counts = counts_of(fixture);
    uint64_t held = 0;
    for (size_t i = 0; i < WINDOWS_TIMES; i++) held += counts.held[i];
    return held;
}

/* What a lender is that somebody writes to a window under. */
static struct {
    const struct window_lender *own;
    uint8_t *writes_to;
} busy;

static int lend_and_write(void *opaque, const uint32_t *numbers, size_t count, struct window_loan *loans) {
    int cause = busy.own->lend(opaque, numbers, count, loans);
    if (busy.writes_to != NULL) *busy.writes_to = 99;
    busy.writes_to = NULL;
    return cause;
}

/* A page that is written after its bytes were copied isn't held, and keeps what was written. The others are held once. */
static void changes(void) {
    FIXTURE(&never_pinned, PAGES, PAGES);
    struct window_lender lender = *lender_interface(fixture.lender);
    fill(at, PAGES, 2);
    busy.own = lender_interface(fixture.lender);
    busy.writes_to = at + 5 * PAGE;
    lender.lend = lend_and_write;
    windows_detach(fixture.windows);
    must(windows_attach(fixture.windows, &lender), "windows_attach");
    check(look_until(&fixture, PAGES - 1) == PAGES - 1, "all pages but the written one are lent");
    check(counts_of(&fixture).changed == 1 && held_by(&fixture) == PAGES - 1, "which isn't held");
    check(at[5 * PAGE] == 99 && at[7 * PAGE] == 2, "and has what was written");
    at[5 * PAGE] = 2;
    check(look_until(&fixture, PAGES) == PAGES && held_by(&fixture) == PAGES, "it is lent when it is equal again");
    fixture_end(&fixture, window);
}

/* A lender that refuses to release slots for some calls, and whose slots for some are none. */
static struct {
    const struct window_lender *own;
    int refusals, strange;
} odd;

static int refuse_release(void *opaque, const uint64_t *slots, size_t count) {
    if (odd.refusals > 0) return odd.refusals--, EIO;
    return odd.own->release(opaque, slots, count);
}

static int lend_strangely(void *opaque, const uint32_t *numbers, size_t count, struct window_loan *loans) {
    int cause = odd.own->lend(opaque, numbers, count, loans);
    for (size_t i = 0; i < count && odd.strange > 0; i++, odd.strange--) {
        odd.own->release(opaque, &loans[i].slot, 1);
        loans[i].slot = odd.strange % 2 == 0 ? (uint64_t)WINDOW_SLOT_TOPS << 32 : WINDOW_SLOT_RESTS;
    }
    return cause;
}

/* Slots that a lender doesn't release at once are released later. A slot that is none is a failure, and its page stays private. */
static void odd_lenders(void) {
    FIXTURE(&never_pinned, PAGES, PAGES);
    struct window_lender lender = *lender_interface(fixture.lender);
    fill(at, PAGES, 2);
    odd.own = lender_interface(fixture.lender);
    odd.refusals = 3, odd.strange = 2;
    lender.release = refuse_release, lender.lend = lend_strangely;
    windows_detach(fixture.windows);
    must(windows_attach(fixture.windows, &lender), "windows_attach");
    struct window_result result = {0};
    for (int i = 0; i < 40 && result.status == WINDOW_OK; i++) result = look(fixture.windows);
    check(result.status == WINDOW_LENDER_FAILED && result.cause == EPROTO, "slots that are none are reported");
    check(look_until(&fixture, PAGES) == PAGES && slots_of(&fixture) == PAGES, "their pages are lent later");
    memset(at, 9, PAGE);
    must(window_discard(window, 1, 1), "window_discard");
    for (int i = 0; i < 4; i++) result = look(fixture.windows);
    check(odd.refusals == 0 && slots_of(&fixture) == PAGES - 2, "slots whose release was refused are released later");
    fixture_end(&fixture, window);
    munmap(at, PAGES * PAGE);
}

/* A lender whose first reply to a lend is lost. */
static struct {
    const struct window_lender *own;
    size_t count, asked;
    uint64_t slots[PAGES];
} lossy;

static int ask_counted(void *opaque, const uint32_t *numbers, const uint64_t *fingerprints, const bool *passing, size_t count,
                       unsigned char *seen) {
    lossy.asked += count;
    return lossy.own->ask(opaque, numbers, fingerprints, passing, count, seen);
}

static int lend_unheard(void *opaque, const uint32_t *numbers, size_t count, struct window_loan *loans) {
    int cause = lossy.own->lend(opaque, numbers, count, loans);
    if (lossy.count > 0) return cause;
    for (size_t i = 0; i < count; i++) lossy.slots[lossy.count++] = loans[i].slot;
    return ECONNRESET;
}

/* Pages of a lend whose reply was lost stay as they are, and aren't asked about, until the lender has taken its loans back. */
static void lost_replies(void) {
    struct fixture fixture = fixture_make(&never_pinned, PAGES);
    uint8_t *at = memory(PAGES);
    struct window *window = window_over(&fixture, at, PAGES);
    struct window_lender lender = *lender_interface(fixture.lender);
    fill(at, PAGES, 2);
    lossy.own = lender_interface(fixture.lender);
    lender.ask = ask_counted, lender.lend = lend_unheard;
    windows_detach(fixture.windows);
    must(windows_attach(fixture.windows, &lender), "windows_attach");
    for (int i = 0; i < 40 && lossy.count == 0; i++) windows_look(fixture.windows);
    const size_t asked = lossy.asked, lost = lossy.count;
    for (int i = 0; i < 10; i++) windows_look(fixture.windows);
    size_t open = 0;
    page_entry pages[PAGES];
    check(pageshare_process_read_pages(OF(window), 0, pages, PAGES), "pages are read");
    for (size_t i = 0; i < PAGES; i++) open += belief_of(&pages[i]) == PAGESHARE_WINDOW_COPIED ? 1 : 0;
    check(lost > 0 && open == lost && slots_of(&fixture) == lost + counts_of(&fixture).lent,
          "it isn't known whether they are lent");
    at[0] = 9;
    must(window_discard(window, 1, 1), "window_discard");
    check(lossy.own->release(lender.opaque, lossy.slots, lost) == 0, "the lender takes its loans back");
    at[0] = 1;
    memset(at + PAGE, 2, PAGE);
    windows_taken_up(fixture.windows);
    check_between_looks(fixture.windows);
    check(asked == PAGES && look_until(&fixture, PAGES) == PAGES && slots_of(&fixture) == PAGES,
          "they are lent once the lender has none of the loans");
    must(window_free(window, WINDOW_DROP), "window_free");
    fixture_free(&fixture);
    munmap(at, PAGES * PAGE);
}

/* A set whose pages are idle, and nobody else has them, so that each is asked about at one look in `turns`. */
static struct fixture idle_set(uint8_t *at, uint16_t turns, struct window **window) {
    const struct windows_config config = {.pins = WINDOWS_PINS_NEVER, .tuning = {.turns = turns}};
    struct fixture fixture = fixture_make(&config, PAGES);
    *window = window_over(&fixture, at, PAGES);
    fill(at, PAGES, PAGES);
    look_often(&fixture, 24);
    check(counts_of(&fixture).lends == 0, "no page is equal to another one");
    return fixture;
}

/* What a page becomes that nobody had is found by the next look's glance at it, whatever its turn is; and pages that stay aren't read. */
static void glances(void) {
    enum { TURNS = 512, SOON = 6 };
    uint8_t *at = memory(PAGES);
    struct window *window;
    struct fixture fixture = idle_set(at, TURNS, &window);
    uint64_t reads = counts_of(&fixture).reads;
    look_often(&fixture, SOON);
    check(counts_of(&fixture).reads - reads <= PAGES, "idle pages are read at some looks only");
    memset(at, 'e', PAGE), memset(at + PAGES / 2 * PAGE, 'e', PAGE);
    look_often(&fixture, SOON);
    check(counts_of(&fixture).lent == 2, "pages that became equal are lent some looks later");
    fixture_end(&fixture, window);
    munmap(at, PAGES * PAGE);
}

/* A change that no glance at a page can see is found when the page is read in its turn. */
static void reads_seldom(void) {
    enum { TURNS = 8, LOOKS = 200 };
    uint8_t *at = memory(PAGES);
    struct window *window;
    struct fixture fixture = idle_set(at, TURNS, &window);
    size_t place = glance_place(fingerprint_of(lender_interface(fixture.lender)->salt, at)), lent = 0;
    uint64_t *first = (uint64_t *)(void *)at, *second = first + WORDS;
    for (size_t word = 0; word < WORDS; word++) {
        if (word < place || word >= place + GLANCE_WORDS) first[word] = 77;
        second[word] = first[word];
    }
    for (int i = 0; i < LOOKS && lent < 2; i++) {
        look_often(&fixture, 1);
        lent = counts_of(&fixture).lent;
    }
    check(lent == 2, "pages that became equal are lent when both were read");
    fixture_end(&fixture, window);
    munmap(at, PAGES * PAGE);
}

/* In a calm part a look glances at one page in eight. A run that changes is found by that at once, and a page alone some looks later. What has
 * left the window isn't touched. */
static void samples(void) {
    enum { MANY = 512, CALM = 64, RUN = 16, FIRST = 200, SOON = 4, EACH = 8, TURNS = 512 };
    const struct windows_config config = {.pins = WINDOWS_PINS_NEVER, .tuning = {.turns = TURNS, .rest_most = EACH - 1}};
    FIXTURE(&config, MANY, MANY);
    for (size_t word = 0; word < MANY * WORDS; word++) ((uint64_t *)(void *)at)[word] = word;
    look_often(&fixture, CALM);
    check(counts_of(&fixture).lends == 0, "no page is equal to another one");
    for (size_t page = FIRST - 1; page <= FIRST + RUN; page += RUN + 1) {
        check(window_cut(window, page, 1, NULL).status == WINDOW_OK, "the pages beside a run leave");
        check(mprotect(at + page * PAGE, PAGE, PROT_NONE) == 0, "and nobody may read them");
    }
    memset(at + FIRST * PAGE, 'e', RUN * PAGE);
    look_often(&fixture, SOON);
    check(counts_of(&fixture).lent + 1 >= RUN, "a run of pages that became equal is lent as soon as it is idle");
    memset(at + 3 * PAGE, 'f', PAGE), memset(at + 400 * PAGE, 'f', PAGE);
    look_often(&fixture, EACH + 2 * SOON);
    check(counts_of(&fixture).lent == RUN + 2, "pages alone are lent some looks later");
    fixture_end(&fixture, window);
    munmap(at, MANY * PAGE);
}

/* A process with a window of two pages, at its place 0, and how it finds these. */
struct two {
    struct pageshare_process process;
    page_entry pages[2];
    struct pageshare_process_part part;
};

static void two_make(struct two *two) {
    const struct pageshare_process_facts facts = {.most = 100};
    const struct pageshare_process_offer offer = {.count = 2};
    *two = (struct two){.process = {.at = NULL}};
    check(pageshare_process_make(&two->process, &facts) && pageshare_process_offer(&two->process, &offer) == 0,
          "a process has a window");
}

static void two_read(struct two *two) {
    check(pageshare_process_read_pages(&two->process, 0, 0, two->pages, 2), "pages are read");
    check(pageshare_process_read_part(&two->process, 0, 0, &two->part), "a part is read");
}

/* Notes something of some of its pages, and reads them. */
static bool two_note(struct two *two, size_t first, size_t count, struct pageshare_process_notice notice) {
    bool is_noted = pageshare_process_note(&two->process, 0, first, count, &notice);
    two_read(two);
    return is_noted;
}

#define TWO_NOTE(TWO, FIRST, COUNT, ...) two_note(TWO, FIRST, COUNT, (struct pageshare_process_notice){__VA_ARGS__})

/* Whether a call of the monitor may go on by the first page, of which this is so from then on. */
static bool goes_on(struct two *two, struct pageshare_window_facts why) {
    const struct pageshare_process_question question = {.kind = PAGESHARE_PROCESS_GO_ON, .why = why};
    return pageshare_process_may(&two->process, 0, 0, 1, &question);
}

/* What C reads in the first page's bytes is what the library says: whether it shows a frame. Adds its belief to those that were seen. */
static void check_belief(struct two *two, uint32_t *beliefs) {
    const struct pageshare_window_facts called = {.called = true}, leaves = {.leaves = true};
    two_read(two);
    bool waits = !goes_on(two, called);
    check((waits || is_lent(&two->pages[0])) == !goes_on(two, leaves), "a page is lent where it shows a frame");
    *beliefs |= (uint32_t)1 << belief_of(&two->pages[0]);
}

/* The first page is copied and gets a loan. */
static void lend_first(struct two *two, uint32_t *beliefs) {
    const uint32_t number = 0, frame = 7;
    const uint64_t fingerprint = 0, slot = 5;
    const uint8_t one = 1;
    uint8_t answer = 0;
    const struct pageshare_process_list all = {.numbers = &number,
                                               .numbers_count = 1,
                                               .fingerprints = &fingerprint,
                                               .fingerprints_count = 1,
                                               .given = &one,
                                               .given_count = 1,
                                               .slots = &slot,
                                               .slots_count = 1,
                                               .frames = &frame,
                                               .frames_count = 1,
                                               .answers = &answer,
                                               .answers_count = 1,
                                               .file_frames = 8,
                                               .is_heard = true};
    const uint8_t kinds[] = {PAGESHARE_PROCESS_TO_COPY, PAGESHARE_PROCESS_COPIED, PAGESHARE_PROCESS_LOANED,
                             PAGESHARE_PROCESS_TO_HOLD};
    for (size_t i = 0; i < sizeof kinds; i++) {
        struct pageshare_process_list list = all;
        list.kind = kinds[i];
        check(pageshare_process_list(&two->process, 0, &list) && answer != 0, "a page comes to be lent");
        check_belief(two, beliefs);
    }
}

/* It is held, and its frame is mapped. */
static void hold_first(struct two *two, uint32_t *beliefs) {
    const uint8_t taking = PAGESHARE_WINDOW_TAKEN_GUARDED;
    uint8_t row = 0;
    struct pageshare_window_row_order order;
    check(pageshare_process_begin_row(&two->process, 0, 0, &row, 1, &taking, 1), "a row begins");
    check_belief(two, beliefs);
    while (pageshare_process_next_of_row(&two->process, 0, 0, &row, 1, &order), order.step != PAGESHARE_WINDOW_HOLD_OVER) {
        check_belief(two, beliefs);
        if (order.step == PAGESHARE_WINDOW_HOLD_MAP) TWO_NOTE(two, 0, 1, .kind = PAGESHARE_PROCESS_COVERED, .frame = 7);
        check(pageshare_process_row_done(&two->process, 0, 0, &row, 1, &order, 1, 0), "an order is carried out");
        check_belief(two, beliefs);
    }
}

/* A page is lent, and called home. */
static void beliefs(void) {
    struct two two;
    uint32_t seen = 0;
    two_make(&two);
    check_belief(&two, &seen);
    lend_first(&two, &seen);
    hold_first(&two, &seen);
    TWO_NOTE(&two, 0, 1, .kind = PAGESHARE_PROCESS_CALLED_HOME, .why = {.pinned = true});
    check_belief(&two, &seen);
    TWO_NOTE(&two, 0, 1, .kind = PAGESHARE_PROCESS_COPIED_HOME);
    check_belief(&two, &seen);
    const unsigned first[] = {PAGESHARE_WINDOW_PRIVATE, PAGESHARE_WINDOW_CHOSEN, PAGESHARE_WINDOW_COPIED, PAGESHARE_WINDOW_READY};
    const unsigned then[] = {PAGESHARE_WINDOW_HELD, PAGESHARE_WINDOW_EQUAL, PAGESHARE_WINDOW_SHOWN, PAGESHARE_WINDOW_LEAVING};
    for (size_t i = 0; i < sizeof first / sizeof first[0]; i++)
        check((seen >> first[i] & seen >> then[i] & 1) != 0, "it was believed on the way");
    pageshare_process_free(&two.process);
}

static bool begins_moved(const page_entry *page) { return (page->looks & PAGESHARE_WINDOW_BEGINS) != 0; }

/* What C reads of a page's place is what was noted of it. */
static void places(void) {
    struct two two;
    two_make(&two);
    const page_entry *page = &two.pages[1];
    check(TWO_NOTE(&two, 0, 2, .kind = PAGESHARE_PROCESS_COVERED, .frame = 320), "frames are mapped");
    check(is_over(page) && clue_in(page) == 321 && !is_past(page) && !shows_past(page), "a frame lies under a page");
    check(TWO_NOTE(&two, 0, 2, .kind = PAGESHARE_PROCESS_MOVED_THERE), "memory is moved");
    check(!is_over(page) && is_moved(page) && !begins_moved(page) && clue_in(page) == 0, "its memory was moved there");
    check(begins_moved(&two.pages[0]), "the first page begins what was moved");
    check(TWO_NOTE(&two, 0, 1, .kind = PAGESHARE_PROCESS_UNCOVERED), "the first one's memory is mapped");
    check(pageshare_process_mappings(&two.process) == 2, "it is in another mapping");
    check(!is_moved(&two.pages[0]) && begins_moved(page), "the page behind it begins what was moved");
    check(pageshare_process_note_page(&two.process, 0, 1, PAGESHARE_PROCESS_GIVEN_BACK, true), "a page is given back");
    two_read(&two);
    check(is_given_back(page) && two.part.counts.zeros == 1, "it was given back");
    check(TWO_NOTE(&two, 1, 1, .kind = PAGESHARE_PROCESS_GIVEN_UP), "one page is given up");
    check(!is_given_back(page) && two.part.counts.zeros == 0, "it was given up");
    check(TWO_NOTE(&two, 1, 1, .kind = PAGESHARE_PROCESS_LEFT), "one page leaves");
    check(is_out(page) && !is_over(page) && !is_out(&two.pages[0]), "it has left");
    check(!TWO_NOTE(&two, 1, 2, .kind = PAGESHARE_PROCESS_LEFT) && !is_out(&two.pages[0]),
          "a page that isn't there leaves no window");
    pageshare_process_free(&two.process);
}

/* Whether two frames that are mapped at the places of two pages count as one mapping. */
static bool are_in_a_row(struct two *two, uint32_t frame, uint32_t next) {
    const struct pageshare_process_notice first = {.kind = PAGESHARE_PROCESS_COVERED, .frame = frame},
                                          then = {.kind = PAGESHARE_PROCESS_COVERED, .frame = next};
    pageshare_process_note(&two->process, 0, 0, 1, &first);
    pageshare_process_note(&two->process, 0, 1, 1, &then);
    return pageshare_process_mappings(&two->process) == 1;
}

/* Frames in a row are one mapping, but at each multiple of 32,768. Those at about the same place of two machines are not. */
static void clues(void) {
    enum { FRAMES = 1 << 20, MACHINE = 1 << 18, CLUES = 1 << GLANCE_BITS };
    size_t in_a_row = 0, apart = 0;
    struct two two;
    two_make(&two);
    for (uint32_t frame = 0; frame < FRAMES; frame++) {
        in_a_row += are_in_a_row(&two, frame, frame + 1) ? 1 : 0;
        for (uint32_t place = 0; place < 8; place++) apart += are_in_a_row(&two, frame, frame + MACHINE + place) ? 1 : 0;
    }
    check(in_a_row >= FRAMES - 2 * FRAMES / CLUES, "frames in a row count as one mapping");
    check(apart == 0, "frames of two machines don't");
    pageshare_process_free(&two.process);
}

static bool is_apart(const void *at) { return (uintptr_t)at >> 44 == 2; }

/* Memory for windows themselves is apart from what the system chooses, also when each place there was used once. */
static void apart(void) {
    enum { TIMES = 150, KEPT = 6, KIND = MAP_PRIVATE | MAP_ANONYMOUS | MAP_NORESERVE };
    const size_t much = (size_t)1 << 38;
    uint8_t *kept[KEPT];
    bool are_apart = true;
    for (int i = 0, each = 0; i < TIMES; i++) {
        if (i % (TIMES / KEPT) == 0) kept[each++] = map_apart(PAGE, PROT_READ | PROT_WRITE, KIND, NO_FILE);
        void *at = map_apart(much, PROT_NONE, KIND, NO_FILE);
        check(at != MAP_FAILED, "much is mapped");
        are_apart = are_apart && is_apart(at) && is_apart(kept[each - 1]);
        munmap(at, much);
    }
    check(are_apart, "all of it is apart");
    for (size_t i = 0; i < KEPT; i++) munmap(kept[i], PAGE);
}

int main(void) {
    lives();
    zeros_and_singles();
    bounds();
    discards();
    pinned();
    advice();
    children();
    heard();
    locked();
    locked_unseen();
    huge(false);
    huge(true);
    ends();
    mappings();
    mappings_of_kinds(MAP_NORESERVE);
    mappings_of_kinds(0);
    mappings_left(true);
    mappings_left(false);
    mappings_one_by_one();
    mappings_of_zeros();
    zeros_are_there(false);
    zeros_are_there(true);
    mappings_from_the_beginning();
    beliefs();
    places();
    clues();
    apart();
    second_userfaultfd();
    marks(false);
    marks(true);
    lenders();
    changes();
    odd_lenders();
    lost_replies();
    glances();
    samples();
    reads_seldom();
    puts(check_count() == 0 ? "pages: ok" : "pages: WRONG");
    return check_count() == 0 ? 0 : 1;
}
