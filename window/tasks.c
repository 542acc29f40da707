/* Looks: the proved library says what the thread does next, and a function for each task does it. */
#define _GNU_SOURCE
#include "set.h"
#include <errno.h>
#include <time.h>
#include <unistd.h>

enum {
    READY_PARTS = 64, /* parts of which a look says MADV_UNMERGEABLE at most, while KSM has merged something */
    LIMIT_EACH = 16,  /* looks until the system's limit of mappings is read again */
    TASKS = PAGESHARE_WINDOW_TASK_END + 1
};

/* ---- slots that are released ---- */

/* Slots that are to be released, of one call. */
struct slots {
    size_t count;
    uint64_t slots[WINDOW_BATCH];
    struct window *windows[WINDOW_BATCH];
    size_t pages[WINDOW_BATCH];
};

/* Orders pages of a part to be released whose slots are to be, and collects these. With the lock. */
static void collect_part(struct slots *slots, struct window *window, size_t first) {
    const size_t begin = slots->count, all = rest_of_part(window, first);
    page_entry pages[PART];
    if (part_of(window, first).counts.releases == 0) return;
    slots->count += pageshare_process_to_release(OF(window), first, all, slots->pages + begin, WINDOW_BATCH - begin);
    pageshare_process_read_pages(OF(window), first, pages, all);
    for (size_t i = begin; i < slots->count; i++) {
        slots->windows[i] = window;
        slots->slots[i] = slot_number(pages[slots->pages[i] - first].slot);
    }
}

/* The same of all pages, as many as one message names. Takes the lock. */
static void collect(struct windows *windows, struct slots *slots) {
    slots->count = 0;
    lock_for_look(windows);
    for (struct window *window = windows->first; window != NULL && slots->count < WINDOW_BATCH; window = window->next)
        for (size_t first = 0; first < window->count; first += rest_of_part(window, first)) collect_part(slots, window, first);
    unlock_set(windows);
}

/* Notes whether the slots were released. Takes the lock. */
static void note_releases(struct windows *windows, const struct slots *slots, bool are_released) {
    lock_for_look(windows);
    for (size_t i = 0, count = 1; i < slots->count; i += count, count = 1) {
        struct window *window = slots->windows[i];
        while (i + count < slots->count && slots->windows[i + count] == window) count++;
        pageshare_process_released(OF(window), slots->pages + i, count, are_released);
        for (size_t n = i; are_released && n < i + count; n++)
            trace_release(windows->trace, window->base + (uint32_t)slots->pages[n]);
    }
    unlock_set(windows);
}

static bool release_slots(struct look *look) {
    struct windows *windows = look->windows;
    struct slots slots;
    if (!windows->has_lender || windows->lender_waits) return false;
    collect(windows, &slots);
    if (slots.count == 0) return false;
    int cause = windows->lender.release(windows->lender.opaque, slots.slots, slots.count);
    note_releases(windows, &slots, cause == 0);
    if (cause != 0) lender_failed(windows, cause);
    return cause == 0 && slots.count == WINDOW_BATCH;
}

/* ---- locked memory ---- */

/* Whether a page between two addresses is in a window. Takes the lock. */
static bool has_page_between(void *set, const uint8_t *begin, const uint8_t *end) {
    struct windows *windows = set;
    bool has = false;
    lock_for_look(windows);
    for (struct window *window = windows->first; window != NULL && !has; window = window->next)
        has = has_kind_between(window, begin, end, IN_WINDOW);
    unlock_set(windows);
    return has;
}

/* When smaps is read again: that takes at most a tenth of the share, and a 200th of the time. It takes long if there are many mappings. */
static uint64_t again_ns(const struct windows *windows, uint64_t begun_ns, uint64_t took_ns) {
    enum { MOST_PERCENT = 5 };
    const unsigned percent = windows->has_budget ? windows->budget.percent : MOST_PERCENT;
    return pageshare_window_again(percent < MOST_PERCENT ? percent : MOST_PERCENT, begun_ns, took_ns, 0);
}

/* Looks whether memory of a window was locked since the last time. Reads smaps, but never with the lock. */
static void look_for_locks(struct windows *windows) {
    size_t kib = 0;
    bool is_locked = false;
    int refused = locked_kib(&kib);
    uint64_t begun = clock_now_ns(), spent = clock_spent_ns();
    if (refused == 0 && (kib == windows->locked_kib || (kib > 0 && begun < windows->locks_after_ns))) return;
    if (refused == 0 && kib > 0) refused = locked_find(has_page_between, windows, &is_locked);
    if (refused != 0) { /* (the next time it tries again) */
        note_failure(windows, WINDOW_NO_PAGEMAP, refused);
        return;
    }
    windows->locked_kib = kib;
    lock_for_look(windows);
    windows->is_locked = is_locked;
    follow_facts(windows);
    unlock_set(windows);
    if (kib > 0) windows->locks_after_ns = again_ns(windows, begun, clock_spent_ns() - spent);
    if (windows->is_locked) {
        take_all_home(windows);
        return;
    }
    /* (the scratch area may have been filled) */
    lock_for_look(windows);
    int cause = windows->stuck_count == 0 ? make_scratch(windows) : 0;
    if (cause != 0) note_failure(windows, WINDOW_NO_MAPPING, cause);
    unlock_set(windows);
}

/* ---- memory that the caller watches by a userfaultfd ---- */

/* What it is to be asked about, or nothing while a request is being made. */
static bool is_watch_to_find(struct windows *windows, uint64_t *begun) {
    lock_for_look(windows);
    bool is_due = windows->is_watched && windows->watches_open == 0 && clock_now_ns() >= windows->watches_after_ns;
    *begun = windows->watches_begun;
    unlock_set(windows);
    return is_due;
}

/* Looks whether memory of a window is watched still. Reads smaps, but never with the lock: a request that was made meanwhile counts. */
static void look_for_watches(struct windows *windows) {
    uint64_t begun;
    bool is_any = true;
    if (!is_watch_to_find(windows, &begun)) return;
    uint64_t begun_ns = clock_now_ns(), spent = clock_spent_ns();
    int refused = watched_find(has_page_between, windows, &is_any);
    lock_for_look(windows);
    windows->watches_after_ns = again_ns(windows, begun_ns, clock_spent_ns() - spent);
    if (refused == 0 && !is_any && windows->watches_begun == begun) windows->is_watched = false;
    follow_facts(windows);
    unlock_set(windows);
    if (refused != 0) note_failure(windows, WINDOW_NO_PAGEMAP, refused);
}

/* ---- the tasks ---- */

/* (a signal may end it early: the library says then how much is left) */
static bool sleep_on(struct look *look) {
    const struct timespec nap = {.tv_nsec = (long)look->task.ns};
    nanosleep(&nap, NULL);
    return true;
}

/* Other calls, locks and watches. Where memory is locked a look that hasn't begun goes on until it has said so. */
static bool attend(struct look *look) {
    struct windows *windows = look->windows;
    bool goes_on = windows->config.attend == NULL || windows->config.attend(windows->config.attend_opaque);
    look_for_locks(windows);
    look_for_watches(windows);
    bool is_barred = windows->is_locked || windows_are_watched(windows);
    look->is_cut_short = look->is_cut_short || !goes_on || (look->has_begun && is_barred);
    return !look->is_cut_short;
}

/*
 * Looks for devices, which may take longer than what may not wait should; puts pages back that an earlier look could not; and notes why nothing
 * is lent. Returns whether anything can be looked at.
 */
static bool begin(struct look *look) {
    static const unsigned char zeros[WINDOW_PAGE_BYTES] __attribute__((aligned(8)));
    struct windows *windows = look->windows;
    windows->fingerprint_of_zeros = fingerprint_of(windows->lender.salt, zeros);
    look->unready = merged_kib() > 0 ? READY_PARTS : SIZE_MAX;
    look->has_begun = true;
    unmap_again();
    lock_for_look(windows);
    find_pins(windows);
    look->next = windows->first;
    int cause = free_stuck(windows);
    /* (an earlier look could not make it anew; of memory that is locked it can't be made) */
    bool lacks_scratch = cause == 0 && !windows->has_scratch && !windows->is_locked;
    int refused = lacks_scratch ? make_scratch(windows) : 0;
    if (refused != 0) note_failure(windows, WINDOW_NO_MAPPING, refused);
    windows->counts.looks++;
    if (windows->counts.looks % LIMIT_EACH == 0) follow_limit(windows);
    windows->counts.pause = windows->counts.looks <= windows->crowded_until ? WINDOWS_CROWDED : WINDOWS_LENDING;
    if (!windows->has_lender || windows->lender_waits) windows->counts.pause = WINDOWS_NO_LENDER;
    if (windows->is_watched) windows->counts.pause = WINDOWS_WATCHED;
    if (windows->is_locked) windows->counts.pause = WINDOWS_LOCKED;
    if (cause != 0) windows->counts.pause = WINDOWS_HELD;
    if (cause != 0) note_failure(windows, WINDOW_STUCK, cause);
    if (windows->is_locked) note_failure(windows, WINDOW_LOCKED, EPERM);
    if (windows->advice_cause != 0) note_failure(windows, WINDOW_ADVICE, windows->advice_cause);
    windows->advice_cause = 0;
    bool may_look = cause == 0 && !windows->is_locked && !windows->is_watched;
    unlock_set(windows);
    return may_look;
}

/* (windows that are made in a look come before its first one; that thread alone frees them) */
static bool go_to_window(struct look *look) {
    look->window = look->next;
    if (look->window == NULL) return false;
    look->next = look->window->next;
    look->outcome.parts = (uint32_t)parts_in(look->window);
    return true;
}

/* Frees windows that have ended, and hold no slot any more. With the lock. */
static void free_ended(struct windows *windows) {
    for (struct window **at = &windows->first; *at != NULL;) {
        struct window *window = *at;
        if (pageshare_process_take_out(OF(window))) *at = window->next, free_window(window);
        else at = &window->next;
    }
}

static bool end(struct look *look) {
    struct windows *windows = look->windows;
    lock_for_look(windows);
    free_ended(windows);
    int cause = clear_scratch(windows);
    if (cause != 0 && !windows->is_locked) note_failure(windows, WINDOW_NO_MAPPING, cause);
    windows->counts.look_ns += clock_spent_ns() - look->begun_spent;
    if (!look->is_cut_short) windows->counts.round_ns = clock_now_ns() - look->begun_ns;
    unlock_set(windows);
    return false;
}

/* ---- copies over frames ---- */

/*
 * Finds pages in a row in a part that have copies of their own over frames, and that nobody else had for some time, at most HOME_MOST. Returns how
 * many; 0: there are few in each row. With the lock.
 */
static size_t find_left_over(const struct window *window, size_t part, size_t *at) {
    enum { ROW_LEAST = 8 };
    const size_t first = part == 0 ? 0 : part * PART - window->lead, end = first + rest_of_part(window, first);
    struct pageshare_window_run run = {.first = first};
    while (run.count < ROW_LEAST)
        if (!go_to_run(window, &run, end, PAGESHARE_WINDOW_KIND_LEFT_OVER)) return 0;
    *at = run.first;
    return least(run.count, HOME_MOST);
}

/*
 * Copies over frames stay in as many mappings as the frames were, of which each may be one by itself. Those in a row get other memory, which is
 * one mapping: one row of a part at a look. Where devices may have pinned copies they stay. With the lock.
 */
static size_t find_to_join(const struct look *look, size_t *at) {
    const struct windows *windows = look->windows;
    bool may_join = !look->window->ended && windows->stuck_count == 0 && !windows->is_watched && !may_pin(windows);
    return may_join ? find_left_over(look->window, look->task.part, at) : 0;
}

static void join_left_over(struct look *look) {
    size_t at = 0;
    begin_turn(look);
    lock_for_look(look->windows);
    const size_t count = find_to_join(look, &at);
    struct window_result result = count > 0 ? take_home(look->window, at, count) : result_of(WINDOW_OK, 0);
    if (result.status != WINDOW_OK) note_failure(look->windows, result.status, result.cause);
    unlock_set(look->windows);
}

static bool look_and_join(struct look *look) {
    size_t at = 0;
    bool goes_on = look_at_part(look);
    lock_for_look(look->windows);
    bool has_more = goes_on && find_to_join(look, &at) > 0;
    unlock_set(look->windows);
    if (has_more) join_left_over(look);
    return goes_on;
}

/* ---- a look ---- */

static task_do *const does[TASKS] = {
    [PAGESHARE_WINDOW_TASK_SLEEP] = sleep_on,
    [PAGESHARE_WINDOW_TASK_BEGIN] = begin,
    [PAGESHARE_WINDOW_TASK_ATTEND] = attend,
    [PAGESHARE_WINDOW_TASK_RELEASE] = release_slots,
    [PAGESHARE_WINDOW_TASK_WINDOW] = go_to_window,
    [PAGESHARE_WINDOW_TASK_LOOK] = look_and_join,
    [PAGESHARE_WINDOW_TASK_RETURN] = look_again,
    [PAGESHARE_WINDOW_TASK_GIVE_BACK] = give_zeros_back,
    [PAGESHARE_WINDOW_TASK_ASK] = ask_lender,
    [PAGESHARE_WINDOW_TASK_COPY] = copy_for_lender,
    [PAGESHARE_WINDOW_TASK_LEND] = ask_for_loans,
    [PAGESHARE_WINDOW_TASK_HOLD] = hold_loaned,
    [PAGESHARE_WINDOW_TASK_END] = end,
};

/* The budget pays for what a thread uses from its first look on, or from its first after another's. */
static void begin_paying(struct look *look) {
    struct windows *windows = look->windows;
    pid_t thread = gettid();
    if (thread == windows->looker) return;
    windows->looker = thread;
    windows->unpaid_ns = look->spent_ns - windows->budget.spent;
}

/* The processor time that the budget counts. */
static uint64_t paid_ns(const struct look *look) {
    const struct windows *windows = look->windows;
    return windows->has_budget ? look->spent_ns - windows->unpaid_ns : 0;
}

/* The count of the processor time of such tasks, or NULL. */
static uint64_t *time_of(struct windows_counts *counts, unsigned kind) {
    switch (kind) {
    case PAGESHARE_WINDOW_TASK_ASK: return &counts->ask_ns;
    case PAGESHARE_WINDOW_TASK_LEND: return &counts->lend_ns;
    case PAGESHARE_WINDOW_TASK_GIVE_BACK:
    case PAGESHARE_WINDOW_TASK_HOLD: return &counts->map_ns;
    default: return NULL;
    }
}

/* Reads the thread's clock, which is a call of the system: once a task. Takes the lock for a task that is counted. */
static void note_spent(struct look *look) {
    struct windows *windows = look->windows;
    uint64_t *counted = time_of(&windows->counts, look->task.kind), before = look->spent_ns;
    look->spent_ns = clock_spent_ns();
    if (counted == NULL) return;
    lock_for_look(windows);
    *counted += look->spent_ns - before;
    unlock_set(windows);
}

static void carry_out(struct look *look) {
    look->outcome = (struct pageshare_window_outcome){.goes_on = false};
    look->outcome.goes_on = does[look->task.kind](look);
    look->outcome.zeros = (uint32_t)look->zeros.count;
    look->outcome.idle = (uint32_t)look->idle.count;
    note_spent(look);
}

struct window_result windows_look(struct windows *windows) {
    uint64_t now = clock_now_ns();
    const uint64_t spent = clock_spent_ns();
    struct look look = {.windows = windows, .begun_ns = now, .begun_spent = spent, .spent_ns = spent};
    if (!pageshare_window_begin_tasks(&windows->tasks)) return result_of(WINDOW_OK, 0); /* (one stands: `attend` called this) */
    windows->result = result_of(WINDOW_OK, 0);
    windows->lender_waits = false;
    begin_paying(&look);
    for (;;) {
        look.task = pageshare_window_next_task(&windows->tasks, &windows->budget, now, paid_ns(&look));
        if (look.task.kind == PAGESHARE_WINDOW_TASK_OVER) return windows->result;
        carry_out(&look);
        now = clock_now_ns();
        pageshare_window_task_done(&windows->tasks, &look.task, &look.outcome, now);
    }
}

/* ---- the thread's processor time ---- */

void windows_pace(struct windows *windows, unsigned percent, unsigned burst) {
    if (windows->has_budget) pageshare_window_pace(&windows->budget, percent, burst);
}

void windows_give_credit(struct windows *windows, uint64_t ns) {
    if (windows->has_budget) pageshare_window_give_credit(&windows->budget, ns);
}

struct windows_budget windows_budget_of(const struct windows *windows) {
    return (struct windows_budget){.percent = windows->budget.percent, .credit_ns = windows->budget.credit};
}
