/*
 * What the system refuses in the middle of something: guards that fail half-way, pages that can't be put back, copies and punches
 * that fail. Nobody waits for ever, no byte is lost, and what failed is done later. Prints "guards: ok" (status 0) or what isn't so.
 */
#define _GNU_SOURCE
#include "faults.h"
#include "fixture.h"
#include <errno.h>
#include <limits.h>
#include <sys/prctl.h>
#include <time.h>

enum { PAGES = 64 };

struct write {
    uint8_t *at;
    atomic_bool is_done;
    pthread_t thread;
};

static void *write_byte(void *opaque) {
    struct write *write = opaque;
    *(volatile uint8_t *)write->at = 200;
    atomic_store(&write->is_done, true);
    return NULL;
}

static void start(struct write *write, uint8_t *at) {
    *write = (struct write){.at = at};
    check(pthread_create(&write->thread, NULL, write_byte, write) == 0, "a thread that writes");
}

static bool is_done_in_time(struct write *write) {
    const struct timespec pause = {.tv_nsec = 1000000};
    for (int i = 0; i < 2000 && !atomic_load(&write->is_done); i++) nanosleep(&pause, NULL);
    return atomic_load(&write->is_done);
}

/* The write has to go on in time. Otherwise nothing ends here any more. */
static void ends(struct write *write, const char *what) {
    bool is_done = is_done_in_time(write);
    check(is_done, what);
    if (!is_done) exit(1);
    pthread_join(write->thread, NULL);
}

/* The guard fails half-way: nobody waits, and the pages are lent by a later look. */
static void guard_fails(void) {
    const struct windows_config config = {.pins = WINDOWS_PINS_NEVER, .never_move = true};
    FIXTURE(&config, PAGES, PAGES);
    struct write write;
    fill(at, PAGES, 1);
    planned.protects = 100;
    look_often(&fixture, 8);
    check(planned.protects < 100 && counts_of(&fixture).lent == 0, "with no guard nothing is lent");
    start(&write, at);
    ends(&write, "a write doesn't wait for a guard that failed");
    planned.protects = 0;
    check(look_until(&fixture, PAGES - 1) == PAGES - 1, "later the other pages are lent");
    check(at[0] == 200 && at[1] == 1, "each reads as it was written");
    fixture_end(&fixture, window);
}

static void make_differ(uint8_t *at, size_t page) { at[page * PAGE + 100] ^= 1; }

/* Somebody writes to pages just before they are held: then they must be put back. */
static void change(uintptr_t at, size_t bytes) {
    for (size_t page = 0; page < bytes / PAGE; page++) make_differ((uint8_t *)at, page);
}

/* Whether pages that `change` has changed, but for two of them, are as it left them. */
static bool are_kept(const uint8_t *at, size_t written, size_t discarded) {
    bool are = true;
    for (size_t page = 0; page < PAGES; page++)
        are = are && (page == written || page == discarded || (at[page * PAGE] == 1 && at[page * PAGE + 200] == 1));
    return are;
}

/* Pages that changed since they were lent can't be put back for some time: first all of a hold, and then some of them again. */
static void put_fails(void) {
    enum { PUTS = HOLD_MOST + 4 };
    FIXTURE(&never_pinned, PAGES, PAGES);
    struct write write;
    fill(at, PAGES, 1);
    planned =
        (struct planned){.puts = PUTS, .watches = change, .window = (uintptr_t)at, .window_end = (uintptr_t)at + PAGES * PAGE};
    struct window_result result = {0};
    for (int i = 0; i < 20 && result.status != WINDOW_STUCK; i++) result = look(fixture.windows);
    if (planned.puts == PUTS) {
        puts("left out: pages that can't be put back, since this system can't move pages");
    } else {
        check(result.status == WINDOW_STUCK && result.cause == ENOMEM, "the look reports pages that are stuck");
        start(&write, at + 5 * PAGE);
        check(window_discard(window, 6, 1).status == WINDOW_OK || planned.puts == 0, "a discard tries to put them back");
        planned.watches = NULL;
        for (int i = 0; i < 5; i++) result = look(fixture.windows);
        ends(&write, "a write goes on when they are put back");
        check(at[5 * PAGE] == 200 && at[7 * PAGE + 100] != 1 && are_kept(at, 5, 6), "no byte of them is lost");
    }
    planned = (struct planned){0};
    fixture_end(&fixture, window);
}

/* Frames can't be mapped: the pages have their memory still, and are lent later. */
static void map_fails(bool never_move) {
    enum { COPIES = 4 };
    const struct windows_config config = {.pins = WINDOWS_PINS_NEVER, .never_move = never_move};
    FIXTURE(&config, PAGES, PAGES);
    fill(at, PAGES, 1);
    planned = (struct planned){.copies = COPIES, .window = (uintptr_t)at, .window_end = (uintptr_t)at + PAGES * PAGE};
    struct window_result result = {0};
    for (int i = 0; i < 20 && result.status != WINDOW_NO_MAPPING; i++) result = look(fixture.windows);
    check(result.status == WINDOW_NO_MAPPING && result.cause == ENOMEM, "the look reports that a frame can't be mapped");
    check(planned.copies < COPIES - 1, "it is tried in two ways");
    bool are = true;
    for (size_t page = 0; page < PAGES; page++) are = are && are_bytes(at + page * PAGE, 1);
    check(are, "the pages have their bytes");
    planned = (struct planned){0};
    check(look_until(&fixture, PAGES) == PAGES, "later looks lend them");
    must(window_free(window, WINDOW_TAKE_HOME), "window_free");
    fixture_free(&fixture);
}

/* A registration can't be ended at once. */
static void release_fails(bool never_move) {
    const struct windows_config config = {.pins = WINDOWS_PINS_NEVER, .never_move = never_move};
    FIXTURE(&config, PAGES, PAGES);
    fill(at, PAGES, 1);
    planned.releases = 1;
    struct window_result result = {0};
    for (int i = 0; i < 20 && result.status != WINDOW_STUCK; i++) result = look(fixture.windows);
    check(result.status == WINDOW_STUCK && result.cause == EINVAL, "the look reports so");
    check(look_until(&fixture, PAGES) == PAGES, "a later look ends it");
    must(window_free(window, WINDOW_TAKE_HOME), "window_free");
    check(at[0] == 1 && at[(PAGES - 1) * PAGE] == 1, "no byte is lost");
    fixture_free(&fixture);
}

/* The same for pages of zeros, whose memory is given back: a write to one waits until a later look, and isn't lost. */
static void release_of_zeros_fails(bool never_move) {
    const struct windows_config config = {.pins = WINDOWS_PINS_NEVER, .never_move = never_move};
    FIXTURE(&config, PAGES, PAGES);
    struct write write;
    memset(at, 0, PAGES * PAGE);
    planned.releases = 1;
    struct window_result result = {0};
    for (int i = 0; i < 20 && result.status != WINDOW_STUCK; i++) result = look(fixture.windows);
    check(result.status == WINDOW_STUCK && result.cause == EINVAL, "the look reports so of zeros");
    start(&write, at + 5 * PAGE);
    look_often(&fixture, 1);
    ends(&write, "a write to zeros goes on");
    check(at[5 * PAGE] == 200 && at[5 * PAGE + 1] == 0 && at[6 * PAGE] == 0, "zeros stay, and what was written");
    check(counts_of(&fixture).zeros >= PAGES - 1 && counts_of(&fixture).lent == 0, "zeros are given back");
    fixture_end(&fixture, window);
}

/* Pages can't be brought home, and then their watch isn't ended: a write to one waits until a later look, and isn't lost. */
static void release_of_home_fails(void) {
    FIXTURE(&never_pinned, PAGES, PAGES);
    struct write write;
    fill(at, PAGES, 1);
    check(look_until(&fixture, PAGES) == PAGES, "all pages are lent");
    planned = (struct planned){.copies = 1, .releases = 1, .window = (uintptr_t)at, .window_end = (uintptr_t)at + PAGES * PAGE};
    struct window_result result = window_cut(window, 0, PAGES, NULL);
    check(result.status == WINDOW_STUCK && result.cause == EINVAL, "a cut says that its pages are stuck");
    planned = (struct planned){0};
    start(&write, at + 5 * PAGE);
    look_often(&fixture, 1);
    ends(&write, "a write to a page over its frame goes on");
    check(at[5 * PAGE] == 200 && at[5 * PAGE + 1] == 1 && at[6 * PAGE] == 1, "no byte over the frames is lost");
    fixture_end(&fixture, window);
}

/* A page can't get memory: the call says so, once, and nothing has changed. */
static void populate_fails(void) {
    FIXTURE(&never_pinned, PAGES, PAGES);
    fill(at, PAGES, 1);
    check(look_until(&fixture, PAGES) == PAGES, "all pages are lent");
    const struct iovec buffer = {at + 3 * PAGE, PAGE};
    const struct windows_transfer transfer = windows_transfer_begin(fixture.windows, &buffer, 1);
    size_t kept = 0;
    planned.populates = 1;
    struct window_result result = window_cut(window, 3, 1, NULL);
    check(result.status == WINDOW_NO_MAPPING && result.cause == EINVAL, "window_cut returns what the system said");
    look_often(&fixture, 1);
    check(window_page_is(window, 3) == WINDOW_PAGE_LENT && slots_of(&fixture) == PAGES, "and the page's slot isn't released");
    must(window_cut(window, 3, 1, &kept), "window_cut");
    check(kept == 1, "a page of a transfer gets its copy where it is");
    windows_transfer_end(fixture.windows, transfer);
    fixture_end(&fixture, window);
}

/* The memory of free frames can't be given back at once: it is given back later. */
static void punch_fails(void) {
    FIXTURE(&never_pinned, PAGES, PAGES);
    struct pageshare_domain_totals totals;
    struct lender_counts counts;
    fill(at, PAGES, PAGES / 2);
    check(look_until(&fixture, PAGES) == PAGES, "all pages are lent");
    must(window_discard(window, 0, PAGES), "window_discard");
    must(look(fixture.windows), "windows_look");
    planned.punches = 1;
    check(lender_trim(fixture.lender) == PAGES / 2, "a trim returns how many frames it could not give back");
    check(lender_trim(fixture.lender) == 0, "the next one gives them back");
    lender_count(fixture.lender, &totals, &counts);
    check(totals.frames == 0 && counts.frame_bytes <= PAGE, "the file holds nothing but perhaps the spare frame");
    fixture_end(&fixture, window);
}

/*
 * A pipe has a page of a window, as a device that reads it late, when its frame becomes free and is lent anew: the pipe has what the page
 * contained. Nothing is lent before the frame's memory is given back.
 */
static void frames_are_lent_anew(void) {
    const struct windows_config config = {.pins = WINDOWS_PINS_NEVER};
    struct fixture fixture = fixture_make(&config, PAGES / 2 + 1); /* (so that the same frames are lent) */
    uint8_t *at = memory(PAGES), late[PAGE];
    struct window *window = window_over(&fixture, at, PAGES);
    struct iovec first = {.iov_base = at, .iov_len = PAGE};
    int ends[2];
    fill(at, PAGES, PAGES / 2);
    check(look_until(&fixture, PAGES) == PAGES, "all pages are lent");
    check(pipe(ends) == 0 && vmsplice(ends[1], &first, 1, 0) == PAGE, "a pipe has a page");
    must(window_discard(window, 0, PAGES), "window_discard");
    look_often(&fixture, 2);
    for (size_t i = 0; i < PAGES; i++) memset(at + i * PAGE, (int)(100 + i % (PAGES / 2)), PAGE);
    planned.punches = INT_MAX;
    look_often(&fixture, 12);
    check(counts_of(&fixture).lent == 0, "nothing is lent while memory can't be given back");
    planned.punches = 0;
    check(look_until(&fixture, PAGES) == PAGES, "and then all is lent anew");
    check(read(ends[0], late, PAGE) == PAGE && late[0] == 1 && late[PAGE - 1] == 1, "the pipe has what the page contained");
    close(ends[0]);
    close(ends[1]);
    fixture_end(&fixture, window);
}

static void write_to(uintptr_t at, size_t bytes) {
    if (bytes > 0) ((uint8_t *)at)[PAGE / 2] = 9;
}

/*
 * Zeros are written as soon as they are mapped, before the same was said of them as of what is beside them. So the system
 * doesn't join them with that, and no such mapping is left out of the count.
 */
static void write_comes_first(bool never_move, bool are_given_up) {
    enum { FIRST = 20, COUNT = 8 };
    const struct windows_config config = {.pins = WINDOWS_PINS_NEVER, .never_move = never_move};
    struct fixture fixture = fixture_make(&config, PAGES);
    uint8_t *at = memory(PAGES);
    check(madvise(at, PAGES * PAGE, MADV_DONTDUMP) == 0, "memory that isn't dumped");
    struct window *window = window_over(&fixture, at, PAGES);
    fill(at, PAGES, PAGES);
    memset(at + FIRST * PAGE, are_given_up ? 1 : 0, COUNT * PAGE);
    if (are_given_up) check(look_until(&fixture, COUNT + 1) == COUNT + 1, "some pages are lent");
    planned = (struct planned){.maps = write_to, .window = (uintptr_t)at, .window_end = (uintptr_t)at + PAGES * PAGE};
    for (int i = 0; i < 20 && !are_given_up && counts_of(&fixture).zeros < COUNT; i++) look(fixture.windows);
    if (are_given_up) must(window_discard(window, FIRST, COUNT), "window_discard");
    planned = (struct planned){0};
    check(at[FIRST * PAGE + PAGE / 2] == 9 && at[FIRST * PAGE] == 0, "zeros were mapped, and written");
    check(counts_of(&fixture).mappings >= mappings_in(at, PAGES), "as many mappings are counted as the system has, or more");
    fixture_end(&fixture, window);
}

/*
 * What was said of a window can't be said of zeros in it: they are a mapping by themselves, and none is left out of the count.
 */
static void zeros_are_unlike(void) {
    enum { FIRST = 20, COUNT = 8 };
    struct fixture fixture = fixture_make(&never_pinned, PAGES);
    uint8_t *at = memory(PAGES);
    check(madvise(at, PAGES * PAGE, MADV_DONTDUMP) == 0, "memory that isn't dumped");
    struct window *window = window_over(&fixture, at, PAGES);
    fill(at, PAGES, PAGES);
    memset(at + FIRST * PAGE, 100, COUNT * PAGE);
    check(look_until(&fixture, COUNT) == COUNT, "some pages are lent");
    planned = (struct planned){.dumps = 1, .window = (uintptr_t)at, .window_end = (uintptr_t)at + PAGES * PAGE};
    must(window_discard(window, FIRST, COUNT), "window_discard");
    check(planned.dumps == 0 && look(fixture.windows).status == WINDOW_ADVICE, "a look says what couldn't be said");
    check(counts_of(&fixture).mappings >= mappings_in(at, PAGES), "such zeros count as a mapping");
    fixture_end(&fixture, window);
}

/* What the system says of the mappings of some pages, to be freed. */
static char *said_of(const uint8_t *at, size_t pages) {
    char line[512], *all = NULL;
    uintptr_t begin, end = 0, from = 0;
    size_t length = 0;
    FILE *file = fopen("/proc/self/smaps", "r"), *to = open_memstream(&all, &length);
    while (file != NULL && to != NULL && fgets(line, sizeof line, file) != NULL) {
        if (sscanf(line, "%lx-%lx ", &begin, &end) == 2) from = begin;
        bool is_in = end > (uintptr_t)at && from < (uintptr_t)at + pages * PAGE;
        if (is_in && strncmp(line, "VmFlags:", 8) == 0) fputs(line, to);
    }
    if (file != NULL) fclose(file);
    if (to != NULL) fclose(to);
    return all;
}

/* KSM can't be kept off pages that are to be guarded: they aren't lent before it can. */
static void ksm_stays(void) {
    const struct windows_config config = {.pins = WINDOWS_PINS_NEVER, .never_move = true};
    FIXTURE(&config, PAGES, PAGES);
    struct window_result result = {0};
    fill(at, PAGES, 1);
    planned = (struct planned){.unmergeables = 1000, .window = (uintptr_t)at, .window_end = (uintptr_t)at + PAGES * PAGE};
    for (int i = 0; i < 20 && result.status != WINDOW_NO_MAPPING; i++) result = look(fixture.windows);
    check(result.status == WINDOW_NO_MAPPING && result.cause == ENOMEM, "a look says that KSM can't be kept off");
    check(planned.unmergeables < 1000 && counts_of(&fixture).lent == 0, "and nothing is lent");
    planned = (struct planned){0};
    check(look_until(&fixture, PAGES) == PAGES, "but later");
    fixture_end(&fixture, window);
}

static unsigned merges;

static void find_merges(uintptr_t at, size_t bytes) {
    char *said = said_of((const uint8_t *)at, bytes / PAGE);
    merges += said == NULL || strstr(said, " mg") != NULL ? 1 : 0;
    free(said);
}

/* KSM may merge all memory of the process, frames and copies over them, too: it leaves alone what is guarded. */
static void ksm_is_kept_off(void) {
    enum { ALL_MERGES = 67 /* PR_SET_MEMORY_MERGE, Linux 6.4 */ };
    const struct windows_config config = {.pins = WINDOWS_PINS_NEVER, .never_move = true};
    if (prctl(ALL_MERGES, 1, 0, 0, 0) != 0) {
        puts("left out: a process of which KSM may merge all, since this system has no such thing");
        return;
    }
    FIXTURE(&config, PAGES, PAGES);
    fill(at, PAGES, 1);
    planned = (struct planned){.watches = find_merges, .window = (uintptr_t)at, .window_end = (uintptr_t)at + PAGES * PAGE};
    check(look_until(&fixture, PAGES) == PAGES && merges == 0, "KSM leaves alone what is compared");
    must(window_cut(window, 0, PAGES, NULL), "window_cut");
    check(merges == 0, "and what is brought home");
    planned = (struct planned){0};
    prctl(ALL_MERGES, 0, 0, 0, 0);
    fixture_end(&fixture, window);
}

/* The place for pages that are held can't be made anew, as it is when memory was locked: it is made by a later look. */
static void scratch_fails(void) {
    struct fixture fixture = fixture_make(&never_pinned, PAGES);
    uint8_t *at = memory(PAGES), *locked = memory(1);
    struct window *window = window_over(&fixture, at, PAGES);
    fill(at, PAGES, 1);
    check(mlock(locked, PAGE) == 0, "memory elsewhere is locked");
    planned = (struct planned){.advices = 2};
    struct window_result result = look(fixture.windows);
    check(result.status == WINDOW_NO_MAPPING && result.cause == ENOMEM && planned.advices == 0, "a look says so");
    check(look_until(&fixture, PAGES) == PAGES, "later pages are lent");
    munlock(locked, PAGE);
    fixture_end(&fixture, window);
}

/* The memory policy of a range can't be read: it is no window, unless there is no such call for this process. */
static void policy_is_unknown(int cause) {
    struct fixture fixture = fixture_make(&never_pinned, PAGES);
    uint8_t *at = memory(PAGES);
    struct window *window;
    bool is_none = cause == ENOSYS || cause == EPERM;
    planned = (struct planned){.policies = 1, .policies_cause = cause};
    struct window_result result = window_make(&window, fixture.windows, at, PAGES * PAGE, WINDOW_NO_CHILD);
    check(planned.policies == 0, "a window's memory policy is read");
    if (!is_none)
        check(result.status == WINDOW_ADVICE && result.cause == cause && window == NULL, "an unknown policy is refused");
    if (is_none) must(result, "window_make");
    if (window == NULL) window = window_over(&fixture, at, PAGES);
    fixture_end(&fixture, window);
}

/* A range becomes no window, since one thing can't be said of it: the others are put back. */
static void make_fails(void) {
    enum { MANY = 3 * PART + 40, TIMES = 10 };
    const struct windows_config config = {.pins = WINDOWS_PINS_NEVER, .tuning = {.huge_from = 64}};
    struct fixture fixture = fixture_make(&config, PAGES);
    uint8_t *at = memory(MANY);
    int times = 0;
    struct window *window = NULL;
    madvise(at, MANY * PAGE, MADV_HUGEPAGE);
    madvise(at, MANY * PAGE, MADV_MERGEABLE);
    for (; times < TIMES && window == NULL; times++) {
        char *before = said_of(at, MANY);
        planned = (struct planned){.advices = times + 1};
        struct window_result result = window_make(&window, fixture.windows, at, MANY * PAGE, WINDOW_NO_CHILD);
        planned = (struct planned){0};
        char *then = said_of(at, MANY);
        check(window != NULL || (result.status == WINDOW_ADVICE && result.cause == ENOMEM), "window_make says so");
        check(before != NULL && then != NULL && (strcmp(before, then) == 0) == (window == NULL), "what was said is put back");
        free(before), free(then);
    }
    check(times > 3 && window != NULL, "each thing that is said is refused once");
    char *before = said_of(at, MANY);
    struct window *none;
    struct window_result result = window_make(&none, fixture.windows, at + PART * PAGE, 10 * PAGE, WINDOW_NO_CHILD);
    char *then = said_of(at, MANY);
    check(result.status == WINDOW_BAD_RANGE && none == NULL, "pages of a window become no other one");
    check(before != NULL && then != NULL && strcmp(before, then) == 0, "and nothing is said of them");
    free(before), free(then);
    fixture_end(&fixture, window);
}

/* Takes mappings until the process has as many as it may have. `at`: room for them. */
static void take_mappings(uint8_t *at, size_t pages) {
    for (size_t page = 1; page + 1 < pages && mprotect(at + page * PAGE, PAGE, PROT_READ) == 0; page += 2) {
    }
    while (mmap(NULL, PAGE, PROT_NONE, MAP_SHARED | MAP_ANONYMOUS, NO_FILE, 0) != MAP_FAILED) {
    }
}

/*
 * A part of the library's own memory can't be unmapped where the process has as many mappings as it may have: a look unmaps it
 * later.
 */
static void unmap_fails(void) {
    enum { MOST = 1 << 18 };
    const int kind = MAP_PRIVATE | MAP_ANONYMOUS | MAP_NORESERVE;
    struct fixture fixture = fixture_make(&never_pinned, PAGES);
    uint8_t *own = map_apart(3 * PAGE, PROT_READ | PROT_WRITE, kind, NO_FILE), *middle = own + PAGE;
    uint8_t *many = mmap(NULL, MOST * PAGE, PROT_NONE, kind, NO_FILE, 0);
    unsigned char resident[3];
    check(own != MAP_FAILED && many != MAP_FAILED, "memory");
    memset(own, 1, 3 * PAGE);
    if (mappings_limit() >= MOST) {
        puts("left out: memory that can't be unmapped, since this system has so many mappings");
    } else {
        take_mappings(many, MOST);
        unmap_apart(middle, PAGE);
        check(counts_of(&fixture).left_mapped == 1, "what can't be unmapped is counted");
        check(mincore(own, 3 * PAGE, resident) == 0 && (resident[1] & 1) == 0, "and has no memory");
        munmap(many, MOST * PAGE);
        look_often(&fixture, 1);
        check(counts_of(&fixture).left_mapped == 0 && mincore(middle, PAGE, resident) != 0, "a look unmaps it");
    }
    unmap_apart(own, 3 * PAGE);
    fixture_free(&fixture);
}

int main(void) {
    guard_fails();
    put_fails();
    map_fails(false);
    map_fails(true);
    release_fails(false);
    release_fails(true);
    release_of_zeros_fails(false);
    release_of_zeros_fails(true);
    release_of_home_fails();
    populate_fails();
    punch_fails();
    frames_are_lent_anew();
    unmap_fails();
    make_fails();
    scratch_fails();
    zeros_are_unlike();
    ksm_stays();
    ksm_is_kept_off();
    policy_is_unknown(EFAULT);
    policy_is_unknown(ENOSYS);
    policy_is_unknown(EPERM);
    write_comes_first(true, false); /* (nothing is mapped where zeros were moved away) */
    write_comes_first(true, true);
    write_comes_first(false, true);
    puts(check_count() == 0 ? "guards: ok" : "guards: WRONG");
    return check_count() == 0 ? 0 : 1;
}
