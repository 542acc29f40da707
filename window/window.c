/* Windows, as they come and go. */
#define _GNU_SOURCE
#include "set.h"
#include <errno.h>
#include <sys/mman.h>

/* Of a table with a bit of each page. */
static size_t bytes_of_bits(const struct window *window) { return (window->count + 7) / 8; }

void free_window(struct window *window) {
    table_free(window->cleared, bytes_of_bits(window), sizeof *window->cleared);
    table_free(window, 1, sizeof *window);
}

/* Gives a new window's pages numbers that no window has. With the lock. */
static struct window_result find_numbers(const struct windows *windows, struct window *made) {
    size_t places = 1, count = 0;
    for (const struct window *window = windows->first; window != NULL; window = window->next) places++;
    struct pageshare_window_taken *taken = table_make(places, sizeof *taken);
    if (taken == NULL) return result_of(WINDOW_NO_MEMORY, ENOMEM);
    for (const struct window *window = windows->first; window != NULL; window = window->next)
        taken[count++] = (struct pageshare_window_taken){.base = window->base, .count = (uint32_t)window->count};
    bool are_there = pageshare_window_find_numbers(taken, count, (uint32_t)made->count, &made->base);
    table_free(taken, places, sizeof *taken);
    return are_there ? result_of(WINDOW_OK, 0) : result_of(WINDOW_BAD_RANGE, EINVAL);
}

/* Whether a page of the range is another window's. Pages that have left one may become a new one's. */
static bool meets_other(const struct windows *windows, const uint8_t *at, size_t pages) {
    const uint8_t *end = at + bytes_of(pages);
    for (const struct window *window = windows->first; window != NULL; window = window->next) {
        if (has_kind_between(window, at, end, ITS)) return true;
    }
    return false;
}

/* Whether a range can be a window, and what was said of it. */
static struct window_result find_facts_of_range(void *at, size_t bytes, struct range_facts *facts) {
    size_t pages = bytes / WINDOW_PAGE_BYTES;
    if (pages == 0 || bytes % WINDOW_PAGE_BYTES != 0 || (uintptr_t)at % WINDOW_PAGE_BYTES != 0 || pages >= UINT32_MAX)
        return result_of(WINDOW_BAD_RANGE, EINVAL);
    int cause = range_read(facts, at, pages);
    if (cause != 0) return result_of(WINDOW_NO_PAGEMAP, cause);
    if (!facts->is_private) return result_of(WINDOW_BAD_MEMORY, EINVAL);
    /* (frames, and pages that get memory of their own, would lose a policy that isn't known) */
    if (facts->policy_cause != 0) return result_of(WINDOW_ADVICE, facts->policy_cause);
    if (!facts->is_uniform) return result_of(WINDOW_BAD_MEMORY, EINVAL);
    if (facts->is_locked) return result_of(WINDOW_LOCKED, EPERM);
    return facts->is_watched ? result_of(WINDOW_WATCHED, EBUSY) : result_of(WINDOW_OK, 0);
}

static struct window *make_table(struct windows *windows, void *at, size_t pages) {
    struct window *window = table_make(1, sizeof *window);
    if (window == NULL) return NULL;
    *window = (struct window){.windows = windows, .at = at, .count = pages, .lead = (uintptr_t)at / WINDOW_PAGE_BYTES % PART};
    window->cleared = table_make(bytes_of_bits(window), sizeof *window->cleared);
    if (window->cleared != NULL) return window;
    free_window(window);
    return NULL;
}

/* Says for a new window what its range needs; what can't be put back comes last. */
static struct window_result prepare(struct window *window, unsigned flags) {
    int cause = 0;
    if ((flags & WINDOW_NO_CHILD) != 0) {
        window->advice.dont_fork = true;
        if (madvise(window->at, bytes_of(window->count), MADV_DONTFORK) < 0) cause = errno;
    }
    if (cause == 0 && merged_kib() == 0) {
        cause = advice_say(window->at, window->count, MADV_UNMERGEABLE);
        window->ready = window->count;
    }
    if (cause == 0) cause = begin_parts(window);
    return cause == 0 ? result_of(WINDOW_OK, 0) : result_of(WINDOW_ADVICE, cause);
}

/* Puts back what was said of a range that becomes no window. What the system refuses the next look reports. */
static void unprepare(struct window *window) {
    int cause = advice_end(&window->found, window->at, window->count), refused = 0;
    if (window->advice.dont_fork && !window->found.dont_fork) refused = advice_say(window->at, window->count, MADV_DOFORK);
    if (cause == 0) cause = refused;
    if (cause == 0) return;
    lock_set(window->windows);
    window->windows->advice_cause = cause;
    unlock_set(window->windows);
}

/* Offers a new window to the process, which knows then which of its pages were pinned. Returns false if there is no memory. With the lock. */
static bool offer(struct window *window) {
    struct pageshare_process_offer offer = {.count = window->count, .seams = window->seams, .state = state_of(window)};
    offer.number = (uintptr_t)window->at / WINDOW_PAGE_BYTES;
    window->place = pageshare_process_offer(&window->windows->process, &offer);
    if (window->place == SIZE_MAX) return false;
    if (count_transfers(window)) return true;
    pageshare_process_end(OF(window));
    pageshare_process_take_out(OF(window));
    return false;
}

/* Takes a new window into its set. With the lock. */
static struct window_result enter(struct window *window) {
    struct windows *windows = window->windows;
    struct window_result result = find_numbers(windows, window);
    if (result.status != WINDOW_OK) return result;
    if (!offer(window)) return result_of(WINDOW_NO_MEMORY, ENOMEM);
    note_whole_parts(window);
    window->next = windows->first;
    windows->first = window;
    windows->counts.windows++;
    windows->counts.pages += window->count;
    count_parts(window, true);
    return result;
}

/* Makes a window of what was read of its range. Of a page that is another window's nothing is said, and nothing put back. */
static struct window_result begin(struct window *window, unsigned flags) {
    struct windows *windows = window->windows;
    lock_set(windows);
    bool meets = meets_other(windows, window->at, window->count);
    unlock_set(windows);
    if (meets) return result_of(WINDOW_BAD_RANGE, EINVAL);
    struct window_result result = prepare(window, flags);
    lock_set(windows);
    meets = meets_other(windows, window->at, window->count); /* (it may have been made meanwhile) */
    if (meets) result = result_of(WINDOW_BAD_RANGE, EINVAL);
    else if (result.status == WINDOW_OK) result = enter(window);
    unlock_set(windows);
    if (result.status != WINDOW_OK && !meets) unprepare(window);
    return result;
}

struct window_result window_read(struct window **read, struct windows *windows, void *at, size_t bytes) {
    struct range_facts facts;
    *read = NULL;
    struct window_result result = find_facts_of_range(at, bytes, &facts);
    if (result.status != WINDOW_OK) return result;
    struct window *window = make_table(windows, at, bytes / WINDOW_PAGE_BYTES);
    if (window == NULL) return result_of(WINDOW_NO_MEMORY, ENOMEM);
    window->found = window->advice = facts.advice;
    window->seams = facts.mappings - 1;
    *read = window;
    return result;
}

void window_unread(struct window *read) {
    if (read != NULL) free_window(read);
}

struct window_result window_begin(struct window *read, unsigned flags) {
    struct window_result result = begin(read, flags);
    if (result.status != WINDOW_OK) free_window(read);
    return result;
}

struct window_result window_make(struct window **made, struct windows *windows, void *at, size_t bytes, unsigned flags) {
    struct window_result result = window_read(made, windows, at, bytes);
    if (result.status != WINDOW_OK) return result;
    result = window_begin(*made, flags);
    if (result.status != WINDOW_OK) *made = NULL;
    return result;
}

/* Nothing is lent of a window any more, or again. */
static void set_ends(struct window *window, bool ends) {
    lock_set(window->windows);
    window->ends = ends;
    follow_state(window);
    unlock_set(window->windows);
}

/* Whether frames lie under pages of a window, or of those that have left it. Takes the lock. */
static bool has_frames(struct window *window) {
    lock_set(window->windows);
    const bool has = has_kind(window, 0, window->count, OVER_FRAMES);
    unlock_set(window->windows);
    return has;
}

struct window_result window_free(struct window *window, enum window_end end) {
    if (window == NULL) return result_of(WINDOW_OK, 0);
    struct windows *windows = window->windows;
    set_ends(window, true);
    struct window_result result =
        end == WINDOW_TAKE_HOME ? for_parts(window, 0, window->count, take_home) : window_discard(window, 0, window->count);
    if (result.status == WINDOW_OK && end == WINDOW_TAKE_HOME && has_frames(window)) result = result_of(WINDOW_PINNED, EBUSY);
    if (result.status != WINDOW_OK) {
        set_ends(window, false);
        return result;
    }
    lock_set(windows);
    windows->counts.windows--;
    windows->counts.pages -= window->count;
    count_parts(window, false);
    end_advice(window, 0, window->count);
    pageshare_process_end(OF(window));
    window->ended = window->ends = true; /* (the looking thread may free it from now on) */
    unlock_set(windows);
    return result;
}

/* Says something of all pages that are the window's. Returns 0 or the first errno. With the lock. */
static int say_everywhere(struct window *window, int advice) {
    int cause = 0;
    for (size_t page = 0, run = 0; page < window->count; page += run) {
        bool is_its = false;
        run = run_of_its(window, page, window->count - page, &is_its);
        if (is_its && madvise(address_of(window, page), bytes_of(run), advice) < 0 && cause == 0) cause = errno;
    }
    return cause;
}

struct window_result window_advise(struct window *window, int advice) {
    struct windows *windows = window->windows;
    struct window_result result = result_of(WINDOW_OK, 0);
    bool is_known = advice == MADV_DONTFORK || advice == MADV_DOFORK || advice == MADV_DONTDUMP || advice == MADV_DODUMP;
    if (!is_known) return result_of(WINDOW_ADVICE, EINVAL);
    lock_set(windows);
    bool was_dont_fork = window->advice.dont_fork;
    if (advice == MADV_DOFORK) window->advice.dont_fork = false;
    if (advice == MADV_DONTDUMP || advice == MADV_DODUMP) window->advice.dont_dump = advice == MADV_DONTDUMP;
    follow_state(window);
    unlock_set(windows);
    /* (a child would go on showing frames that are released) */
    if (advice == MADV_DOFORK) result = for_parts(window, 0, window->count, take_home);
    /* (nobody would keep a child from uncovering a frame) */
    if (advice == MADV_DOFORK && result.status == WINDOW_OK && has_frames(window)) result = result_of(WINDOW_PINNED, EAGAIN);
    lock_set(windows);
    int cause = result.status == WINDOW_OK ? say_everywhere(window, advice) : 0;
    if (cause != 0) result = result_of(WINDOW_ADVICE, cause);
    if (advice == MADV_DOFORK && result.status != WINDOW_OK) window->advice.dont_fork = was_dont_fork;
    if (advice == MADV_DONTFORK && result.status == WINDOW_OK) window->advice.dont_fork = true;
    follow_state(window);
    unlock_set(windows);
    return result;
}

enum window_page window_page_is(struct window *window, size_t page) {
    enum window_page is = WINDOW_PAGE_OUT;
    lock_set(window->windows);
    page_entry its;
    if (pageshare_process_read_pages(OF(window), page, &its, 1) && !is_out(&its))
        is = is_lent(&its) || shows_past(&its) ? WINDOW_PAGE_LENT : is_given_back(&its) ? WINDOW_PAGE_ZERO : WINDOW_PAGE_PRIVATE;
    unlock_set(window->windows);
    return is;
}
