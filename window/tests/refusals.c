/*
 * Each call of the system and of the lender is refused in turn, and nothing is lost by that. One scenario has all that windows do: pages are
 * lent, written, discarded, pinned, transferred, unmapped and cut out, parts are split and become whole, a lender goes and another comes, and
 * windows end. It runs once with nothing refused, and calls are counted by kind. Then it runs with the n-th call of a kind refused, or five
 * or seventy from the n-th on, or with half of the call's work done; or with one in twenty, forty or so refused of all calls. A thread reads
 * and writes all the time. After each step of the scenario, and at the end:
 *   - each byte is as it was written last, or zero if it was discarded;
 *   - each slot that the lender gave is a window's, or was released once; at the end all were;
 *   - the system has no more mappings for windows than are counted, and at the end as many as before, and as many open files;
 *   - no page is watched but those that couldn't be let go, and no child of a fork would have frames;
 *   - where nothing was refused lately each call comes out well.
 *
 *     refusals [--seconds N] [--seed N] [--way N --call NAME --step N --from N --mode N]
 *
 * In each round one call of each kind in each step is refused, in one of the ways, until there were 60 rounds or so many seconds are over.
 * The last words are those that a failed run prints: then there is only that run. Prints figures, and "refusals: ok" (status 0) or what
 * isn't so (status 1).
 */
#define _GNU_SOURCE
#include "calls.h"
#include "fixture.h"
#include "slots.h"
#include "strict.h"
#include <dirent.h>
#include <errno.h>
#include <pthread.h>
#include <sched.h>
#include <signal.h>
#include <sys/resource.h>
#include <sys/syscall.h>
#include <time.h>

enum { RANGES = 3, LARGE = PART, MIDDLE = 96, SMALL = 64, ARENA = 6 * PART, FRAMES = 36 };
/* Ways in which the scenario runs: with all that the system has, or with less of it, and a limit of the process. */
enum { UNLIMITED, LIMITED, WAYS };
enum { STEPS = 14, ROUNDS_MOST = 60, MODES = 4, WAIT_SECONDS = 60, CALM_LOOKS = 2 };

/* A range of memory, which is a window most of the time. */
struct range {
    uint8_t *at;
    size_t pages;
    uint8_t (*shadow)[PAGE]; /* what its users wrote last */
    bool *is_gone;           /* of each page: it was unmapped */
    struct window *window;
};
static uint8_t shadows[LARGE + MIDDLE + SMALL][PAGE];
static bool gone[LARGE + MIDDLE + SMALL];
static uint8_t *arena;
static struct range ranges[RANGES];
#define HUGE_RANGE (&ranges[0])
#define ADVISED_RANGE (&ranges[1])
#define LATE_RANGE (&ranges[2])

/* The run under way. */
static struct {
    struct windows *windows;
    struct strict_lender lender;
    bool has_lender, keeps_copies, keeps_others; /* copies: of pages that have left their window, over frames */
    int way;
    struct refusal refusal;
    unsigned mode, refused, calm; /* refused: calls, as far as was noted; calm: looks that came out well since */
    const char *step;
    unsigned made[STEPS][CALLS];  /* calls in each step */
    struct windows_counts counts; /* before the windows end */
} run;
static uint64_t seed = 1;
static unsigned runs, runs_refused;

static void say_run(FILE *to) {
    fprintf(to, "in step '%s' of: refusals --seed %llu --way %d --call %s --step %u --from %u --mode %u\n", run.step,
            (unsigned long long)seed, run.way, call_name(run.refusal.call), run.refusal.step, run.refusal.from, run.mode);
}

static void hang(int signal) {
    (void)signal;
    fputs("not so: each call returns\n", stderr);
    say_run(stderr);
    _exit(1);
}

/* ---- the thread that reads and writes ---- */

static struct {
    _Atomic(void (*)(void)) task;
    atomic_bool rests, stop;
    uint64_t state;
    pthread_t thread;
} guest;

static volatile uint64_t *word_at(const struct range *range, size_t page, size_t word) {
    return (volatile uint64_t *)(void *)(range->at + page * PAGE) + word;
}

/* (its reader and its writer are one thread) */
static void guest_write(struct range *range, size_t page, size_t word, uint64_t value) {
    if (range->is_gone[page]) return;
    memcpy(&range->shadow[page][word * sizeof value], &value, sizeof value);
    guest_store(word_at(range, page, word), value);
}

static void guest_read(const struct range *range, size_t page, size_t word) {
    uint64_t value;
    memcpy(&value, &range->shadow[page][word * sizeof value], sizeof value);
    if (!range->is_gone[page]) check(guest_load(word_at(range, page, word)) == value, "a word is as it was written last");
}

/* No word from here on is read or written by the guest, but where all of a page is. */
enum { WRITTEN_BEFORE = 500 };

/* Some pages are written all the time, and others now and then. */
static void read_and_write(void) {
    enum { HOT = 8, APART = 7, ELSEWHERE = 64, MIDST = 300 };
    struct range *range = &ranges[draw(&guest.state, RANGES)];
    size_t page = range == ADVISED_RANGE ? MIDDLE - 1 - draw(&guest.state, HOT) : draw(&guest.state, HOT) * APART;
    if (draw(&guest.state, ELSEWHERE) == 0) page = draw(&guest.state, range->pages);
    guest_write(range, page, MIDST, draw(&guest.state, 2));
    for (int i = 0; i < 4; i++) guest_read(range, draw(&guest.state, range->pages), draw(&guest.state, WRITTEN_BEFORE));
}

static void *live(void *opaque) {
    const struct timespec rest = {.tv_nsec = 20000};
    (void)opaque;
    while (!atomic_load(&guest.stop)) {
        void (*task)(void) = atomic_load(&guest.task);
        if (task != NULL) {
            task();
            atomic_store(&guest.task, NULL);
        } else {
            if (!atomic_load(&guest.rests)) read_and_write();
            nanosleep(&rest, NULL);
        }
    }
    return NULL;
}

/* A page is written just before it is held, so that it must be put back. */
static void write_before(uintptr_t at, size_t bytes) {
    enum { APART = 5 };
    static unsigned watches;
    for (struct range *range = ranges; range < ranges + RANGES; range++) {
        size_t page = (at - (uintptr_t)range->at) / PAGE;
        if (at < (uintptr_t)range->at || page >= range->pages || atomic_load(&guest.task) != NULL) continue;
        if (++watches % APART == 0) guest_write(range, page + bytes / PAGE / 2, WRITTEN_BEFORE, watches);
    }
}

/* ---- calls, and what came of them ---- */

/* Something may be refused still, or was refused lately. */
static bool is_troubled(void) {
    if (calls_refused() != run.refused) run.calm = 0;
    run.refused = calls_refused();
    return run.refused > 0 && run.calm < CALM_LOOKS;
}

/* Whether a call came out well, as it must if nothing was refused lately. */
static bool came(struct window_result result, const char *what) {
    if (!is_troubled()) must(result, what);
    return result.status == WINDOW_OK;
}

static void look_once(void) {
    if (run.windows == NULL) return;
    struct window_result result = look(run.windows);
    bool is_well = came(result, "windows_look");
    run.calm = is_well ? run.calm + 1 : 0;
}

static void look_times(int looks) {
    for (int i = 0; i < looks; i++) look_once();
}

/* Has the guest do something. It may wait for pages until a look puts them back. */
static void guest_do(void (*task)(void)) {
    const time_t begun = time(NULL);
    atomic_store(&guest.task, task);
    for (unsigned i = 1; atomic_load(&guest.task) != NULL; i++) {
        sched_yield();
        if (i % 256 == 0) usleep(200);
        if (i % 1024 == 0) look_once();
        if (time(NULL) - begun <= WAIT_SECONDS) continue;
        fputs("not so: nobody waits for ever\n", stderr);
        say_run(stderr);
        _exit(1);
    }
}

static void rest(void) { atomic_store(&guest.rests, true); }
static void guest_rest(void) { guest_do(rest); }
static void guest_go(void) { atomic_store(&guest.rests, false); }

/* ---- what pages contain ---- */

/* The content of a page: that of a group, zeros, or one that no other page has. */
static void write_page(struct range *range, size_t page, unsigned group, uint64_t own) {
    for (size_t word = 0; word < WORDS; word++) guest_write(range, page, word, group * 0x0101010101010101u);
    for (size_t word = 0; word < WORDS && own != 0; word += 8) guest_write(range, page, word, own);
}

static void fill_ranges(void) {
    for (size_t page = 0; page < LARGE; page++) {
        unsigned group = page < 200 ? (unsigned)page % 40 + 1 : page < 240 ? 0 : 200;
        write_page(HUGE_RANGE, page, group, group == 200 ? page + 1000 : 0);
    }
    for (size_t page = 0; page < MIDDLE; page++) {
        unsigned group = page < 60 ? (unsigned)page % 20 + 1 : page < 80 ? 0 : 201;
        write_page(ADVISED_RANGE, page, group, group == 201 ? page + 1000 : 0);
    }
    for (size_t page = 0; page < SMALL; page++)
        write_page(LATE_RANGE, page, (unsigned)page % 16 + 1, page < 48 ? 0 : page + 1000);
}

static void check_bytes(void) {
    bool are = true;
    for (const struct range *range = ranges; range < ranges + RANGES; range++)
        for (size_t page = 0; page < range->pages; page++)
            are = are && (range->is_gone[page] || memcmp(range->at + page * PAGE, range->shadow[page], PAGE) == 0);
    check(are, "each byte is as it was written last");
}

/* Pages that are to be given up, of those that are a window's: they are zeros then, or were not given up at all. The guest rests. */
static struct {
    struct range *range;
    size_t first, count;
    bool is_done, are_its[LARGE];
} given_up;

static void begin_give_up(struct range *range, size_t first, size_t count) {
    guest_rest();
    given_up.range = range, given_up.first = first, given_up.count = count;
    for (size_t page = first, same = 0; page < first + count; page += same) {
        bool is_its = false;
        same = window_run(range->window, page, first + count - page, &is_its);
        for (size_t i = page; i < page + same; i++) given_up.are_its[i] = is_its;
    }
}

static void take_given_up(void) {
    for (size_t page = given_up.first; page < given_up.first + given_up.count; page++) {
        if (given_up.range->is_gone[page] || !given_up.are_its[page]) continue;
        bool are_zeros = are_bytes(given_up.range->at + page * PAGE, 0);
        check(are_zeros || !given_up.is_done, "what was given up is zeros");
        if (are_zeros) memset(given_up.range->shadow[page], 0, PAGE);
    }
}

static void end_give_up(bool is_done) {
    given_up.is_done = is_done;
    guest_do(take_given_up);
    guest_go();
}

static void discard(struct range *range, size_t first, size_t count) {
    if (range->window == NULL) return;
    begin_give_up(range, first, count);
    end_give_up(came(window_discard(range->window, first, count), "window_discard"));
}

static void end_window(struct range *range, enum window_end end) {
    if (range->window == NULL) return;
    if (end == WINDOW_DROP) begin_give_up(range, 0, range->pages);
    bool is_done = came(window_free(range->window, end), "window_free");
    if (is_done) range->window = NULL;
    if (end == WINDOW_DROP) end_give_up(is_done);
}

/* ---- what is checked after each step ---- */

static int find_slot(void *lender, uint32_t page, uint64_t slot, bool shown) {
    (void)shown;
    return lender == NULL || !strict_find(lender, page, slot);
}

static void check_slots(void) {
    strict_find_none(&run.lender);
    int wrong = each_slot(run.windows, find_slot, run.has_lender ? &run.lender : NULL);
    check(wrong == 0, "each slot of a window was given for its page, and not released");
    if (!run.has_lender) return;
    check(strict_are_all_found(&run.lender), "each slot that was given is a window's, or was released");
    check(run.lender.wrong == 0, "no slot is released twice, and none that wasn't given");
}

/* A mapping of the system. */
struct mapping {
    uintptr_t begin, end;
    bool is_frames;
};

/* Whether it has a page of a window. */
static bool is_in_window(const struct mapping *mapping, const struct range *range) {
    const uintptr_t at = (uintptr_t)range->at, stop = at + range->pages * PAGE;
    bool is_its = false;
    if (range->window == NULL || mapping->begin >= stop || mapping->end <= at) return false;
    size_t page = mapping->begin > at ? (mapping->begin - at) / PAGE : 0;
    size_t behind = mapping->end < stop ? (mapping->end - at) / PAGE : range->pages;
    for (size_t same = 0; page < behind && !is_its; page += same) same = window_run(range->window, page, behind - page, &is_its);
    return is_its;
}

/* Whether all its pages have memory of their own. */
static bool is_own(const struct mapping *mapping) {
    struct pagemap pagemap;
    bool own[PART], is = pagemap_open(&pagemap, true) == 0;
    for (uintptr_t at = mapping->begin; at < mapping->end && is; at += PART * PAGE) {
        size_t pages = (mapping->end - at) / PAGE < PART ? (mapping->end - at) / PAGE : PART;
        is = pagemap_find_copies(&pagemap, (void *)at, pages, own) == 0 && memchr(own, false, pages) == NULL;
    }
    close(pagemap.fd);
    return is;
}

static bool has_flag(const char *flags, const char *flag) { return strstr(flags, flag) != NULL; }

/* Checks a mapping of windows by its line of flags. */
static void check_mapping(const struct mapping *mapping, const char *flags) {
    bool is_watched = has_flag(flags, " um") || has_flag(flags, " uw");
    check(!is_watched || run.windows->stuck_count > 0, "between looks nobody has to wait");
    bool is_childs = mapping->is_frames && !has_flag(flags, " dc");
    check(!is_childs || is_own(mapping), "no child of a fork would have frames, but copies of them at most");
}

/* So many mappings may be left out of the count, and some for each refused call: copies over frames in a row may be several. */
enum { ASTRAY = 2, ASTRAY_EACH = 4 };

static void check_mappings(void) {
    char line[512];
    struct mapping mapping = {.begin = 0};
    struct windows_counts counts;
    size_t found = 0;
    static char buffer[1 << 16];
    FILE *file = fopen("/proc/self/smaps", "r");
    if (file != NULL) setvbuf(file, buffer, _IOFBF, sizeof buffer);
    while (file != NULL && fgets(line, sizeof line, file) != NULL) {
        struct mapping next;
        bool is_next = sscanf(line, "%lx-%lx ", &next.begin, &next.end) == 2;
        if (is_next) mapping = next, mapping.is_frames = has_flag(line, "memfd:frames");
        for (size_t i = 0; i < RANGES && is_next; i++) found += is_in_window(&mapping, &ranges[i]) ? 1 : 0;
        bool is_in_arena = mapping.begin >= (uintptr_t)arena && mapping.end <= (uintptr_t)arena + ARENA * PAGE;
        if (is_in_arena && strncmp(line, "VmFlags:", 8) == 0) check_mapping(&mapping, line);
    }
    if (file != NULL) fclose(file);
    windows_count(run.windows, &counts);
    size_t counted = counts.mappings + ASTRAY + ASTRAY_EACH * calls_refused();
    if (counted < found) fprintf(stderr, "%zu mappings are counted, and there are %zu\n", counts.mappings, found);
    check(counted >= found, "no mapping is left out of the count");
}

static void check_all(void) {
    guest_do(check_bytes);
    if (run.windows == NULL) return;
    check_slots();
    check_mappings();
}

/* ---- the scenario ---- */

static void free_lender(void) {
    calls_count(false);
    strict_free(&run.lender);
    calls_count(true);
    run.has_lender = false;
}

static void attach(void) {
    calls_count(false);
    check(strict_make(&run.lender, FRAMES), "a lender is made");
    calls_count(true);
    run.has_lender = came(windows_attach(run.windows, &run.lender.interface), "windows_attach");
    if (!run.has_lender) free_lender();
}

/* What was said of a range, but for MADV_NOHUGEPAGE, which no advice takes back. */
static struct advice advice_on(const struct range *range) {
    struct range_facts facts = {.is_private = false};
    calls_count(false);
    check(range_read(&facts, range->at, range->pages) == 0 && facts.is_private, "a range is read");
    calls_count(true);
    facts.advice.no_huge = facts.advice.huge = false;
    return facts.advice;
}

static void make_window(struct range *range, unsigned flags) {
    const struct advice before = advice_on(range);
    const unsigned refused = calls_refused();
    bool is_made = came(window_make(&range->window, run.windows, range->at, range->pages * PAGE, flags), "window_make");
    if (is_made || calls_refused() != refused + 1) return;
    const struct advice then = advice_on(range);
    check(then.dont_fork == before.dont_fork && then.mergeable == before.mergeable, "what was said of no window is put back");
}

static void begin(void) {
    const struct windows_config config = {.pins = WINDOWS_PINS_NEVER,
                                          .tuning = {.huge_from = 64},
                                          .never_wait = true,
                                          .never_move = run.way == LIMITED,
                                          .never_scan = run.way == LIMITED};
    if (!came(windows_make(&run.windows, &config), "windows_make")) return;
    make_window(HUGE_RANGE, WINDOW_NO_CHILD);
    make_window(ADVISED_RANGE, WINDOW_NO_CHILD);
    make_window(LATE_RANGE, 0);
    attach();
    look_times(2);
}

static void advise(void) {
    if (LATE_RANGE->window != NULL) came(window_advise(LATE_RANGE->window, MADV_DONTFORK), "MADV_DONTFORK");
    if (ADVISED_RANGE->window != NULL) came(window_advise(ADVISED_RANGE->window, MADV_DODUMP), "MADV_DODUMP");
    look_times(7);
    if (ADVISED_RANGE->window != NULL) came(window_advise(ADVISED_RANGE->window, MADV_DONTDUMP), "MADV_DONTDUMP");
}

static void write_some(void) {
    for (size_t page = 40; page < 80; page++) guest_write(HUGE_RANGE, page, 100, page < 70 ? page : 1);
    for (size_t page = 30; page < 40; page++) guest_write(ADVISED_RANGE, page, 9, 5);
    for (size_t page = 10; page < 16; page++) guest_write(LATE_RANGE, page, 500, 6);
}

static void find_copies(void) {
    guest_do(write_some);
    look_times(5);
}

static void transfer_some(void) {
    for (size_t page = 0; page < 20; page++) guest_write(ADVISED_RANGE, page, 11, 3);
}

static void transfer(void) {
    const struct iovec buffers[] = {{ADVISED_RANGE->at + 100, 12 * PAGE}, {ADVISED_RANGE->at + 12 * PAGE, 8 * PAGE}};
    const struct windows_transfer place = windows_transfer_begin(run.windows, buffers, 2);
    look_once();
    guest_do(transfer_some);
    look_once();
    windows_transfer_end(run.windows, place);
    look_times(4);
}

static void give_up(void) {
    discard(HUGE_RANGE, 10, 20);
    discard(HUGE_RANGE, 190, 60);
    discard(ADVISED_RANGE, 10, 80);
    look_once();
    discard(LATE_RANGE, 0, 8);
    look_times(3);
}

static void let_children(void) {
    struct window *window = LATE_RANGE->window;
    if (window == NULL) return;
    came(window_advise(window, MADV_DOFORK), "MADV_DOFORK");
    look_once();
    came(window_advise(window, MADV_DONTFORK), "MADV_DONTFORK");
    look_times(4);
}

static void make_alike(void) {
    for (size_t page = 0; page < 100; page++) write_page(HUGE_RANGE, page, (unsigned)page % 20 + 1, 0);
}

static void make_unlike(void) {
    for (size_t page = 0; page < LARGE; page++) guest_write(HUGE_RANGE, page, 40, page + 5000);
}

static void say_huge(bool may) {
    int cause = HUGE_RANGE->window != NULL ? window_say_huge(HUGE_RANGE->window, 0, LARGE, may) : 0;
    check(cause == 0 || is_troubled(), "window_say_huge");
}

static void split_and_join(void) {
    const struct windows_tuning whole = {.huge_from = PART + 1}, split = {.huge_from = 64};
    guest_do(make_unlike);
    windows_tune(run.windows, &whole);
    look_times(4);
    windows_tune(run.windows, &split);
    guest_do(make_alike);
    look_times(5);
    say_huge(false);
    look_once();
    say_huge(true);
    look_once();
}

static void unmap(void) {
    enum { FIRST = 84, COUNT = MIDDLE - FIRST };
    uint8_t *at = ADVISED_RANGE->at + FIRST * PAGE;
    const int kind = MAP_PRIVATE | MAP_ANONYMOUS | MAP_NORESERVE | MAP_FIXED;
    if (ADVISED_RANGE->window == NULL) return;
    guest_rest();
    int cause = windows_pause(run.windows);
    check(cause == 0 || is_troubled(), "windows_pause");
    if (cause == 0) {
        calls_count(false);
        bool is_gone = run.way == LIMITED ? munmap(at, COUNT * PAGE) == 0 : mmap(at, COUNT * PAGE, PROT_NONE, kind, -1, 0) == at;
        calls_count(true);
        check(is_gone, "pages are unmapped");
        window_forget(ADVISED_RANGE->window, FIRST, COUNT);
        windows_resume(run.windows);
        memset(ADVISED_RANGE->is_gone + FIRST, true, COUNT);
    }
    guest_go();
    look_times(2);
}

static void cut(void) {
    size_t kept = 0;
    if (LATE_RANGE->window == NULL || !came(window_cut(LATE_RANGE->window, 40, 10, &kept), "window_cut")) return;
    check(kept == 0 || is_troubled(), "pages that nobody pins leave with memory of their own");
    run.keeps_others = kept > 0;
    if (kept > 0) return;
    guest_rest();
    calls_count(false);
    check(madvise(LATE_RANGE->at + 42 * PAGE, 2 * PAGE, MADV_DONTNEED) == 0, "what has left is its users'");
    calls_count(true);
    for (size_t page = 42; page < 44; page++) memset(LATE_RANGE->shadow[page], 0, PAGE);
    guest_go();
    look_times(2);
}

static void exchange_lenders(void) {
    windows_detach(run.windows);
    if (run.has_lender) free_lender();
    guest_do(write_some);
    look_times(2);
    attach();
    look_times(6);
}

/* From here on pages of the first range leave as copies over frames. */
enum { KEPT = 10 };

static void write_lent(void) {
    for (size_t page = KEPT; page < KEPT + 50; page++) guest_write(HUGE_RANGE, page, 100, page);
}

static void keep_copies(void) {
    size_t kept = 0;
    if (HUGE_RANGE->window == NULL) return;
    for (int i = 0; i < 20 && window_page_is(HUGE_RANGE->window, KEPT + 4) != WINDOW_PAGE_LENT; i++) look_once();
    guest_do(write_lent);
    windows_set_pins(run.windows, WINDOWS_PINS_POSSIBLE);
    look_times(3);
    bool is_done = came(window_leave(HUGE_RANGE->window, KEPT, 30, &kept), "window_leave");
    look_once();
    guest_do(check_bytes);
    if (is_done) discard(HUGE_RANGE, KEPT, 15);
    is_done = is_done && came(window_cut(HUGE_RANGE->window, KEPT, 30, NULL), "window_cut");
    if (is_done) discard(HUGE_RANGE, KEPT + 15, 15);
    run.keeps_copies = calls_refused() > 0; /* (some may have been cleared where they are, over frames) */
    look_once();
    windows_set_pins(run.windows, WINDOWS_PINS_NEVER);
    if (run.refusal.count == 0) check(kept > 0, "copies that may be pinned are kept");
}

static void leave(void) {
    windows_count(run.windows, &run.counts);
    end_window(ADVISED_RANGE, WINDOW_TAKE_HOME);
    end_window(LATE_RANGE, WINDOW_DROP);
    look_times(2);
}

static void end(void) {
    windows_end(run.windows);
    look_once();
    if (!run.keeps_copies) end_window(HUGE_RANGE, WINDOW_TAKE_HOME);
    look_once();
}

/* Nothing is refused any more: all windows end, and all slots are released. */
static void finish(void) {
    calls_stop();
    look_times(CALM_LOOKS + 2);
    discard(HUGE_RANGE, KEPT, 30); /* (of what has left some copies may be kept) */
    if (run.keeps_others) discard(LATE_RANGE, 40, 10);
    for (struct range *range = ranges; range < ranges + RANGES; range++) end_window(range, WINDOW_TAKE_HOME);
    look_times(2);
    check(!is_troubled(), "looks come out well at the end");
    check(left_mapped() == 0, "what the system refused to unmap is unmapped");
    check(!run.has_lender || run.lender.slots_left == 0, "no slot is left");
}

struct step {
    const char *name;
    void (*act)(void);
};
static const struct step steps[STEPS] = {
    {"begin", begin},
    {"advise", advise},
    {"find copies", find_copies},
    {"transfer", transfer},
    {"give up", give_up},
    {"let children", let_children},
    {"split and join", split_and_join},
    {"unmap", unmap},
    {"cut", cut},
    {"exchange lenders", exchange_lenders},
    {"keep copies", keep_copies},
    {"leave", leave},
    {"end", end},
    {"finish", finish},
};

/* ---- runs ---- */

static size_t lines_in(const char *path) {
    char line[512];
    size_t count = 0;
    FILE *file = fopen(path, "r");
    while (file != NULL && fgets(line, sizeof line, file) != NULL) count++;
    if (file != NULL) fclose(file);
    return count;
}

static size_t open_files(void) {
    size_t count = 0;
    DIR *folder = opendir("/proc/self/fd");
    while (folder != NULL && readdir(folder) != NULL) count++;
    if (folder != NULL) closedir(folder);
    return count;
}

/* Memory for the ranges, as a monitor has it, or nobody's. */
static void map_ranges(bool are_there) {
    const int kind = MAP_PRIVATE | MAP_ANONYMOUS | MAP_NORESERVE | MAP_FIXED, prefers = 1;
    const unsigned long first_node = 1;
    mmap(arena, ARENA * PAGE, PROT_NONE, kind, -1, 0);
    for (struct range *range = ranges; range < ranges + RANGES && are_there; range++) {
        mmap(range->at, range->pages * PAGE, PROT_READ | PROT_WRITE, kind, -1, 0);
        memset(range->is_gone, false, range->pages * sizeof *range->is_gone);
        memset(range->shadow, 0, range->pages * PAGE);
        range->window = NULL;
    }
    if (!are_there) return;
    madvise(HUGE_RANGE->at, LARGE * PAGE, MADV_HUGEPAGE);
    madvise(ADVISED_RANGE->at, MIDDLE * PAGE, MADV_MERGEABLE);
    madvise(ADVISED_RANGE->at, MIDDLE * PAGE, MADV_DONTDUMP);
    syscall(SYS_mbind, ADVISED_RANGE->at, MIDDLE * PAGE, prefers, &first_node, 64ul, 0ul);
}

static void do_step(const struct step *step) {
    unsigned before = check_count();
    run.step = step->name;
    if (run.windows == NULL && step != steps) return;
    calls_step((unsigned)(step - steps));
    calls_count(true);
    step->act();
    calls_count(false);
    for (enum call call = 0; call < CALLS; call++) run.made[step - steps][call] = calls_made(call);
    check_all();
    if (check_count() != before) say_run(stderr);
}

/* The number of calls in a row that are refused in each mode. In the last but one each does half of its work. */
static const unsigned in_a_row[MODES] = {1, 5, 1, 70};
enum { HALF_MODE = 2 };
/* And of how many calls of any kind one is. */
static const unsigned one_in[MODES] = {20, 40, 100, 400};

/* Whether the system may refuse mappings by a limit of the process. None is reached. */
static void set_limit(bool is_limited) {
    struct rlimit limit;
    getrlimit(RLIMIT_DATA, &limit);
    limit.rlim_cur = is_limited && limit.rlim_max > (rlim_t)1 << 40 ? (rlim_t)1 << 40 : limit.rlim_max;
    setrlimit(RLIMIT_DATA, &limit);
}

/* One run. `refusal`: what is refused; NULL: nothing. */
static void do_run(int way, unsigned mode, const struct refusal *refusal) {
    run.way = way, run.mode = mode, run.refused = run.calm = 0;
    run.keeps_copies = run.keeps_others = false;
    run.refusal = refusal != NULL ? *refusal : (struct refusal){.count = 0};
    guest.state = seed * 1000003 + run.refusal.from * 101 + run.refusal.call * 7 + mode;
    alarm(2 * WAIT_SECONDS);
    size_t mappings = lines_in("/proc/self/maps"), files = open_files();
    set_limit(way == LIMITED);
    map_ranges(true);
    guest_do(fill_ranges);
    calls_begin(refusal);
    guest_go();
    memset(run.made, 0, sizeof run.made);
    for (const struct step *step = steps; step < steps + STEPS; step++) do_step(step);
    guest_rest();
    if (run.windows == NULL) unmap_again(); /* (there were no looks that do it) */
    windows_free(run.windows);
    run.windows = NULL;
    if (run.has_lender) free_lender();
    calls_count(false);
    map_ranges(false);
    run.step = "after the end";
    unsigned before = check_count();
    size_t left = lines_in("/proc/self/maps") - mappings;
    check(left == 0, "there are as many mappings as before");
    check(open_files() == files, "and as many open files");
    if (check_count() != before) say_run(stderr);
    runs++;
    runs_refused += calls_refused() > 0 ? 1 : 0;
}

static void make_ranges(void) {
    static const size_t places[RANGES] = {PART, 3 * PART + 40, 4 * PART + 7}, pages[RANGES] = {LARGE, MIDDLE, SMALL};
    const size_t huge = (size_t)PART * PAGE;
    uint8_t *all = mmap(NULL, (ARENA + PART) * PAGE, PROT_NONE, MAP_PRIVATE | MAP_ANONYMOUS | MAP_NORESERVE, -1, 0);
    check(all != MAP_FAILED, "room for memory");
    arena = all + (huge - (uintptr_t)all % huge) % huge;
    for (size_t i = 0, before = 0; i < RANGES; before += pages[i++])
        ranges[i] = (struct range){
            .at = arena + places[i] * PAGE, .pages = pages[i], .shadow = shadows + before, .is_gone = gone + before};
}

/* Calls of a kind that a step of the scenario makes. Of CALLS: of any kind, in the whole scenario. */
struct class {
    int way;
    enum call call;
    unsigned step, count;
};
enum { CLASSES_MOST = 2048 };
static struct class classes[CLASSES_MOST];
static size_t class_count;

static void add_class(int way, enum call call, unsigned step, unsigned count) {
    if (count == 0 || class_count == CLASSES_MOST) return;
    classes[class_count++] = (struct class){.way = way, .call = call, .step = step, .count = count};
}

/* Runs with nothing refused, in which all happens, and lists what can be refused. */
static void find_classes(int way) {
    enum { ANY_APART = 3 }; /* steps */
    do_run(way, 0, NULL);
    const struct windows_counts *counts = &run.counts;
    check(counts->lends > 0 && counts->copied > 0 && counts->zeros > 0 && counts->discarded > 0,
          "pages are lent, written, given up");
    check(counts->taken_home > 0 && counts->splits > 0, "and taken home, and parts are split");
    if (way == UNLIMITED && counts->made_whole == 0)
        puts("left out: parts that become whole, since this system gave no huge page");
    for (unsigned step = 0; step < STEPS; step++) {
        for (enum call call = 0; call < CALLS; call++) add_class(way, call, step, run.made[step][call]);
        if (step % ANY_APART == 0) add_class(way, CALLS, step, ROUNDS_MOST);
    }
}

static void refuse_one(const struct class *class, unsigned mode, unsigned from) {
    const struct refusal refusal = {.call = class->call,
                                    .step = class->step,
                                    .from = from,
                                    .count = in_a_row[mode],
                                    .one_in = one_in[mode],
                                    .draw = from + mode,
                                    .is_half = mode == HALF_MODE && call_has_half(class->call)};
    do_run(class->way, mode, &refusal);
}

/* The number of a round's call of so many: each comes once, and those of near rounds are far apart. */
static unsigned number_in_round(unsigned round, unsigned count) {
    uint64_t state = seed;
    unsigned begin = (unsigned)draw(&state, count), step = count * 5 / 8 + 1;
    while (step > 1) {
        unsigned a = count, b = step;
        while (b != 0) {
            unsigned rest_of = a % b;
            a = b, b = rest_of;
        }
        if (a == 1) break;
        step--;
    }
    return (unsigned)((begin + (uint64_t)round * step) % count) + 1;
}

static void refuse_all(time_t seconds) {
    time_t begun = time(NULL);
    for (unsigned round = 0; round < ROUNDS_MOST; round++)
        for (size_t i = 0; i < class_count && time(NULL) - begun < seconds; i++)
            if (round < classes[i].count || round < MODES)
                refuse_one(&classes[i], (unsigned)(round + i) % MODES, number_in_round(round, classes[i].count));
}

static bool call_of(const char *name, enum call *call) {
    for (*call = 0; *call <= CALLS; ++*call)
        if (strcmp(call_name(*call), name) == 0) return true;
    return false;
}

int main(int count, char **words) {
    struct class only = {.way = 0};
    bool is_one = false;
    unsigned from = 1, mode = 0;
    time_t seconds = 40;
    for (int i = 1; i + 1 < count; i += 2) {
        if (strcmp(words[i], "--seconds") == 0) seconds = (time_t)strtol(words[i + 1], NULL, 10);
        if (strcmp(words[i], "--seed") == 0) seed = strtoull(words[i + 1], NULL, 10);
        if (strcmp(words[i], "--way") == 0) only.way = strtol(words[i + 1], NULL, 10) == LIMITED ? LIMITED : UNLIMITED;
        if (strcmp(words[i], "--from") == 0) from = (unsigned)strtoul(words[i + 1], NULL, 10);
        if (strcmp(words[i], "--mode") == 0) mode = (unsigned)strtoul(words[i + 1], NULL, 10) % MODES;
        if (strcmp(words[i], "--step") == 0) only.step = (unsigned)strtoul(words[i + 1], NULL, 10);
        if (strcmp(words[i], "--call") == 0) is_one = true;
        if (strcmp(words[i], "--call") == 0 && !call_of(words[i + 1], &only.call)) return 2;
    }
    signal(SIGALRM, hang);
    calls_before_watch(write_before);
    make_ranges();
    atomic_store(&guest.rests, true);
    check(pthread_create(&guest.thread, NULL, live, NULL) == 0, "a thread that reads and writes");
    guest_rest();
    lines_in("/proc/self/maps"), open_files();
    for (int way = 0; way < WAYS && !is_one; way++) find_classes(way);
    if (is_one) refuse_one(&only, mode, from);
    else refuse_all(seconds);
    atomic_store(&guest.stop, true);
    pthread_join(guest.thread, NULL);
    printf("%zu kinds of calls in steps, %u runs, in %u of which something was refused\n", class_count, runs, runs_refused);
    puts(check_count() == 0 ? "refusals: ok" : "refusals: WRONG");
    return check_count() == 0 ? 0 : 1;
}
