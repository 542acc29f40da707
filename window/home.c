/* Pages that are given up, pinned, or get memory of their own for other reasons. */
#define _GNU_SOURCE
#include "set.h"
#include <errno.h>
#include <signal.h>
#include <sys/mman.h>

static bool is_in(const struct window *window, size_t first, size_t count) {
    return first <= window->count && count <= window->count - first;
}

/* Clears pages for which there is no mapping: they are zeros all the same, in memory of their own. */
static void clear(struct window *window, size_t first, size_t count) {
    for (size_t page = first; page < first + count; page++) {
        uint64_t *words = (uint64_t *)(void *)address_of(window, page);
        for (size_t i = 0; i < WORDS; i++) __atomic_store_n(words + i, 0, __ATOMIC_RELAXED);
    }
    note_cleared(window, first, count, true);
}

/* Notes that pages were given up: they are zeros, and take no memory, unless they had to be cleared. */
static void note_given_up(struct window *window, size_t first, size_t count, bool are_cleared) {
    struct windows *windows = window->windows;
    NOTE(window, first, count, .kind = PAGESHARE_PROCESS_GIVEN_UP);
    for (size_t page = first; page < first + count; page++) {
        if (are_cleared) trace_copy(windows->trace, window->base + (uint32_t)page, address_of(window, page));
        else trace_discard(windows->trace, window->base + (uint32_t)page);
    }
    windows->counts.discarded += count;
}

/* Whether a userfaultfd of the caller's own watches one of these pages: the system lets no other one do that. With the lock. */
static bool is_watched_by_caller(struct window *window, size_t first, size_t count) {
    struct windows *windows = window->windows;
    if (!windows->is_watched) return false;
    int cause = faults_watch(&windows->faults, address_of(window, first), count, FAULTS_OF_WRITES);
    if (cause == 0) let_waiters_go(window, first, count);
    return cause == EBUSY;
}

/* Gives up pages in the window, of one kind. Where they are in several mappings they are in one then. With the lock. */
static struct window_result give_up(struct window *window, const struct pageshare_window_run *run) {
    const struct windows *windows = window->windows;
    const size_t first = run->first, count = run->count;
    const bool are_over = run->kind == PAGESHARE_WINDOW_KIND_IN_FRAMES;
    /* (what is mapped anew the caller's own userfaultfd watches no more) */
    if (are_over && is_watched_by_caller(window, first, count)) return result_of(WINDOW_WATCHED, EBUSY);
    bool wants = MAY(window, first, count, .kind = PAGESHARE_PROCESS_WANT_ZEROS, .flag = windows->is_watched);
    bool is_anew = wants && map_pages(window, first, count, ZEROS, PROT_READ | PROT_WRITE) == 0;
    bool are_cleared = are_over && !is_anew;
    if (!is_anew && !are_cleared && madvise(address_of(window, first), bytes_of(count), MADV_DONTNEED) < 0)
        return result_of(WINDOW_NO_MAPPING, errno);
    if (is_anew) note_apart(window, first, count);
    if (are_cleared) clear(window, first, count);
    note_given_up(window, first, count, are_cleared);
    return result_of(WINDOW_OK, 0);
}

/* Gives up pages in one mapping that have left the window, over frames. What the caller said of them since holds on. With the lock. */
static struct window_result give_up_left(struct window *window, size_t first, const struct mapping_facts *facts) {
    if (facts->is_locked) return result_of(WINDOW_LOCKED, EINVAL); /* (as the system refuses it) */
    if (is_watched_by_caller(window, first, facts->pages)) return result_of(WINDOW_WATCHED, EBUSY);
    /* (what can't be written takes a mapping in any case: a guest can't make it be so) */
    bool may_clear = (facts->protection & PROT_WRITE) != 0;
    bool has_room = !may_clear || MAY(window, first, facts->pages, .kind = PAGESHARE_PROCESS_TAKE_ZEROS);
    int cause = has_room ? map_pages(window, first, facts->pages, ZEROS, facts->protection) : ENOMEM;
    bool are_cleared = cause != 0 && may_clear;
    if (cause != 0 && !are_cleared) return result_of(WINDOW_NO_MAPPING, cause);
    if (are_cleared) clear(window, first, facts->pages);
    else cause = advice_give(&facts->advice, &window->found, address_of(window, first), facts->pages);
    if (!are_cleared && cause != 0) window->windows->advice_cause = cause;
    note_given_up(window, first, facts->pages, are_cleared);
    return result_of(WINDOW_OK, 0);
}

/*
 * Finds in which mapping a page is that has left the window, and what was said of it: what was said of the window, if the caller can have
 * said nothing of a part, and nothing is locked. Only else the process's mappings are read, which takes long if they are many.
 */
static int find_left(const struct window *window, size_t page, size_t most, struct mapping_facts *facts) {
    size_t kib = 0;
    const uint8_t *at = address_of(window, page);
    bool is_known = !window->has_cuts && locked_kib(&kib) == 0 && kib == 0;
    if (!is_known || mapping_ask(facts, at, most) != 0) return mapping_read(facts, at, most);
    facts->advice = window->advice;
    return 0;
}

static struct window_result give_up_all_left(struct window *window, const struct pageshare_window_run *run) {
    struct window_result result = result_of(WINDOW_OK, 0);
    struct mapping_facts facts = {.pages = 0};
    for (size_t done = 0; done < run->count && result.status == WINDOW_OK; done += facts.pages) {
        int cause = find_left(window, run->first + done, run->count - done, &facts);
        result = cause == 0 ? give_up_left(window, run->first + done, &facts) : result_of(WINDOW_NO_MAPPING, cause);
    }
    return result;
}

struct window_result for_parts(struct window *window, size_t first, size_t count, step *one) {
    struct window_result result = result_of(WINDOW_OK, 0);
    for (size_t done = 0, part = 0; done < count && result.status == WINDOW_OK; done += part) {
        part = least(count - done, rest_of_part(window, first + done));
        lock_set(window->windows);
        int cause = free_stuck(window->windows);
        result = cause == 0 ? one(window, first + done, part) : result_of(WINDOW_STUCK, cause);
        unlock_set(window->windows);
    }
    return result;
}

static struct window_result discard_part(struct window *window, size_t first, size_t count) {
    bool may = MAY(window, first, count, .kind = PAGESHARE_PROCESS_GIVE_UP);
    struct window_result result = may ? result_of(WINDOW_OK, 0) : result_of(WINDOW_STUCK, EBUSY);
    struct pageshare_window_run run = {.first = first};
    while (result.status == WINDOW_OK && go_to_run(window, &run, first + count, ITS))
        result = run.kind == PAGESHARE_WINDOW_KIND_LEFT ? give_up_all_left(window, &run) : give_up(window, &run);
    return result;
}

struct window_result window_discard(struct window *window, size_t first, size_t count) {
    if (!is_in(window, first, count)) return result_of(WINDOW_BAD_RANGE, EINVAL);
    return for_parts(window, first, count, discard_part);
}

size_t window_run(struct window *window, size_t first, size_t most, bool *is_its) {
    lock_set(window->windows);
    size_t count = run_of_its(window, first, most, is_its);
    unlock_set(window->windows);
    return count;
}

/* Pages over frames that are to get memory of their own elsewhere, which is moved to their place then. */
struct home {
    struct window *window;
    size_t first, count;
    const struct pageshare_window_facts *why; /* what is so of them from now on, beside what is so already */
    uint8_t *at;                              /* the memory elsewhere */
    bool stays[HOME_MOST];                    /* a device may have pinned its copy */
};

/* Takes memory for pages, and guards them. Returns 0 or an errno; if it isn't 0, nobody waits, but for pages that are stuck then. */
static int begin_home(struct home *home) {
    struct window *window = home->window;
    const int kind = MAP_PRIVATE | MAP_ANONYMOUS | MAP_NORESERVE;
    home->at = map_apart(bytes_of(home->count), PROT_READ | PROT_WRITE, kind, NO_FILE);
    if (home->at == MAP_FAILED) return errno;
    int cause = advice_begin(home->at, home->count);
    if (cause == 0) cause = advice_set(&window->advice, NULL, home->at, home->count, MEMORY_SMALL);
    /* (the kernel's KSM lifts a guard) */
    if (cause == 0) cause = advice_say(address_of(window, home->first), home->count, MADV_UNMERGEABLE);
    if (cause == 0) {
        cause = faults_watch(&window->windows->faults, address_of(window, home->first), home->count, FAULTS_OF_WRITES);
        if (cause != 0 && cause != EBUSY)
            let_waiters_go(window, home->first, home->count); /* (of some pages the watch may have begun) */
    }
    if (cause != 0) unmap_apart(home->at, bytes_of(home->count));
    return cause;
}

/*
 * Finds which pages have to stay. They are guarded, so a copy that isn't pinned by now won't be: a device that pins a page to write to
 * it waits as other writers do. Where nobody pins pages all can go; else only those that show their frame, and may get other memory.
 */
static int find_which_stay(struct home *home) {
    struct windows *windows = home->window->windows;
    find_pins(windows);
    int cause = pagemap_find_copies(&windows->pagemap, address_of(home->window, home->first), home->count, home->stays);
    if (cause == 0) pageshare_process_find_staying(OF(home->window), home->why, home->first, home->stays, home->count);
    return cause;
}

/* Moves copies of pages in a row to their place, in one step for threads that read or write meanwhile. Returns 0 or an errno. */
static int bring(struct home *home, size_t from, size_t count) {
    struct window *window = home->window;
    uint8_t *to = address_of(window, home->first + from), *copies = home->at + bytes_of(from);
    for (size_t i = 0; i < count; i++)
        if (!is_cleared(window, home->first + from + i) || !is_zero(to + bytes_of(i)))
            copy_page(copies + bytes_of(i), to + bytes_of(i));
    if (mremap(copies, bytes_of(count), bytes_of(count), MREMAP_MAYMOVE | MREMAP_FIXED, to) == MAP_FAILED) return errno;
    note_moved(window, home->first + from, count);
    NOTE(window, home->first + from, count, .kind = PAGESHARE_PROCESS_MOVED_HOME);
    for (size_t i = from; i < from + count; i++)
        trace_copy(window->windows->trace, window->base + (uint32_t)(home->first + i), to + bytes_of(i - from));
    window->windows->counts.taken_home += count;
    return 0;
}

/* Brings guarded pages home but for those that stay, and ends the guard. Returns 0, or the errno of what was refused. */
static int bring_guarded(struct home *home) {
    struct window *window = home->window;
    int cause = faults_protect(&window->windows->faults, address_of(window, home->first), home->count);
    if (cause == 0) cause = find_which_stay(home);
    for (size_t i = 0, end = 0; i < home->count; i = end) {
        for (end = i + 1; end < home->count && home->stays[end] == home->stays[i]; end++) {
        }
        if (cause == 0 && !home->stays[i]) cause = bring(home, i, end - i);
        if (cause != 0 || home->stays[i]) unmap_apart(home->at + bytes_of(i), bytes_of(end - i));
    }
    int kept = let_waiters_go(window, home->first, home->count);
    return kept != 0 ? kept : cause;
}

/* Brings pages home but for those that stay. Returns 0, or the errno of what was refused: then some are still over frames. */
static int bring_home(struct home *home) {
    sigset_t all, before;
    int cause = begin_home(home);
    if (cause != 0) return cause;
    /* (a signal's handler that writes to one of the pages would wait for its own thread) */
    sigfillset(&all);
    pthread_sigmask(SIG_SETMASK, &all, &before);
    cause = bring_guarded(home);
    pthread_sigmask(SIG_SETMASK, &before, NULL);
    return cause;
}

/* Gives pages that come home by that, at most PART, a copy of their own where they are. Returns 0 or an errno. */
static int copy_in_place(struct window *window, const struct pageshare_window_run *run) {
    if (madvise(address_of(window, run->first), bytes_of(run->count), MADV_POPULATE_WRITE) < 0) return errno;
    NOTE(window, run->first, run->count, .kind = PAGESHARE_PROCESS_COPIED_HOME);
    for (size_t page = run->first; page < run->first + run->count; page++)
        trace_copy(window->windows->trace, window->base + (uint32_t)page, address_of(window, page));
    window->windows->counts.taken_home += run->count;
    return 0;
}

/* What may show frames still gets a copy of its own there. (A write to what is one already might wait for the monitor's own userfaultfd.) */
static struct window_result settle_home(struct window *window, size_t first, size_t count) {
    struct pageshare_window_run run = {.first = first};
    int cause = 0;
    NOTE(window, first, count, .kind = PAGESHARE_PROCESS_CALLED_HOME, .why = {.pinned = true});
    while (cause == 0 && go_to_run(window, &run, first + count, PAGESHARE_WINDOW_KIND_COMING))
        cause = copy_in_place(window, &run);
    NOTE(window, first, count, .kind = PAGESHARE_PROCESS_REFUSED_HOME);
    return cause == 0 ? result_of(WINDOW_OK, 0) : result_of(WINDOW_NO_MAPPING, cause);
}

struct window_result window_home(struct window *window, size_t first, size_t count, bool in_place) {
    if (!is_in(window, first, count)) return result_of(WINDOW_BAD_RANGE, EINVAL);
    return for_parts(window, first, count, in_place ? settle_home : take_home);
}

struct window_result take_home(struct window *window, size_t first, size_t count) {
    return take_home_for(window, first, count, (struct pageshare_window_facts){.called = false});
}

struct window_result take_home_for(struct window *window, size_t first, size_t count, struct pageshare_window_facts why) {
    struct windows *windows = window->windows;
    struct pageshare_window_run run = {.first = first};
    while (go_to_run(window, &run, first + count, PAGESHARE_WINDOW_KIND_IN_FRAMES)) {
        run.count = least(run.count, HOME_MOST);
        struct home home = {.window = window, .first = run.first, .count = run.count, .why = &why};
        NOTE(window, run.first, run.count, .kind = PAGESHARE_PROCESS_CALLED_HOME, .why = why);
        int cause = bring_home(&home);
        NOTE(window, run.first, run.count, .kind = PAGESHARE_PROCESS_REFUSED_HOME);
        if (windows->stuck_count > 0) return result_of(WINDOW_STUCK, cause);
        struct window_result result = settle_home(window, run.first, run.count);
        if (result.status != WINDOW_OK) return result;
    }
    bool may = MAY(window, first, count, .kind = PAGESHARE_PROCESS_GO_ON, .why = why);
    return may ? result_of(WINDOW_OK, 0) : result_of(WINDOW_STUCK, EBUSY);
}

void take_all_home(struct windows *windows) {
    lock_for_look(windows);
    int stuck = free_stuck(windows);
    if (stuck != 0) {
        note_failure(windows, WINDOW_STUCK, stuck);
        unlock_set(windows);
        return;
    }
    for (struct window *window = windows->first; window != NULL; window = window->next) {
        for (size_t first = 0; first < window->count && !window->ended; first += rest_of_part(window, first)) {
            struct window_result result = take_home(window, first, rest_of_part(window, first));
            if (result.status != WINDOW_OK) note_failure(windows, result.status, result.cause);
            unlock_set(windows);
            if (result.status == WINDOW_STUCK) return;
            lock_for_look(windows);
        }
    }
    unlock_set(windows);
}

void end_advice(struct window *window, size_t first, size_t count) {
    struct pageshare_window_run run = {.first = first};
    while (go_to_run(window, &run, first + count, PAGESHARE_WINDOW_KIND_OWN)) {
        int cause = advice_end(&window->found, address_of(window, run.first), run.count);
        if (cause != 0) window->windows->advice_cause = cause;
    }
}

static struct window_result cut_part(struct window *window, size_t first, size_t count) {
    struct window_result result = take_home_for(window, first, count, (struct pageshare_window_facts){.leaves = true});
    if (result.status != WINDOW_OK) return result;
    end_advice(window, first, count);
    NOTE(window, first, count, .kind = PAGESHARE_PROCESS_LEFT);
    return result;
}

struct window_result window_cut(struct window *window, size_t first, size_t count, size_t *kept) {
    lock_set(window->windows);
    window->has_cuts = true;
    unlock_set(window->windows);
    return window_leave(window, first, count, kept);
}

struct window_result window_leave(struct window *window, size_t first, size_t count, size_t *kept) {
    size_t found = 0;
    if (!is_in(window, first, count)) return result_of(WINDOW_BAD_RANGE, EINVAL);
    struct window_result result = for_parts(window, first, count, cut_part);
    lock_set(window->windows);
    struct pageshare_window_run run = {.first = first};
    while (go_to_run(window, &run, first + count, OVER_FRAMES)) found += run.count;
    unlock_set(window->windows);
    if (kept != NULL) *kept = found;
    return result;
}

void window_forget(struct window *window, size_t first, size_t count) {
    struct windows *windows = window->windows;
    struct pageshare_window_run run = {.first = first};
    while (go_to_run(window, &run, first + count, ITS))
        for (size_t page = run.first; page < run.first + run.count; page++)
            trace_discard(windows->trace, window->base + (uint32_t)page);
    NOTE(window, first, count, .kind = PAGESHARE_PROCESS_UNMAPPED);
}
