/* Looks at parts of windows: what has memory of its own, and what is idle. */
#define _GNU_SOURCE
#include "set.h"
#include <sys/mman.h>

enum {
    AHEAD = 12 /* pages that are fetched while another one is glanced at */
};

/* A scan of a part. With the lock. */
struct scan {
    struct window *window;
    size_t first, count; /* the part's pages */
    const struct pageshare_window_look *look;
    const uint8_t *memory; /* which memory each page has */
    uint8_t steps[PART];   /* what is done next with each, and what was found: the library writes it */
    struct pageshare_window_find_outcome outcomes[PART];
    uint16_t due[PART]; /* the places of those with which something is to be done, in order */
    size_t due_count;
};

static unsigned step_of(const struct scan *scan, size_t place) { return scan->steps[place] & PAGESHARE_WINDOW_SCAN_STEP; }

static const uint8_t *page_at(const struct scan *scan, size_t place) { return address_of(scan->window, scan->first + place); }

/* How many pages of a scan have such a bit. */
static size_t count_bit(const struct scan *scan, unsigned bit) {
    size_t count = 0;
    for (size_t i = 0; i < scan->count; i++) count += (scan->steps[i] & bit) != 0 ? 1 : 0;
    return count;
}

/* Finds the pages of a scan with which a step is to be done. Returns whether there are any. */
static bool find_due(struct scan *scan) {
    scan->due_count = 0;
    for (size_t i = 0; i < scan->count; i++) {
        const unsigned step = step_of(scan, i);
        scan->due[scan->due_count] = (uint16_t)i;
        scan->due_count += step >= PAGESHARE_WINDOW_FIND_COPY && step <= PAGESHARE_WINDOW_FIND_COUNT ? 1 : 0;
    }
    return scan->due_count > 0;
}

/* Finds those of them with this step. Returns how many there are. */
static size_t find_with(const struct scan *scan, unsigned step, uint16_t *places) {
    size_t count = 0;
    for (size_t i = 0; i < scan->due_count; i++) {
        places[count] = scan->due[i];
        count += step_of(scan, scan->due[i]) == step ? 1 : 0;
    }
    return count;
}

/* Asks once more, in another way, whether pages have memory of their own: nothing else is so grave. */
static void find_copies(struct scan *scan) {
    struct windows *windows = scan->window->windows;
    uint16_t places[PART];
    const size_t count = find_with(scan, PAGESHARE_WINDOW_FIND_COPY, places);
    for (size_t at = 0; at < count; at++) {
        const bool is_own = pagemap_is_own(&windows->pagemap, page_at(scan, places[at]));
        scan->outcomes[places[at]].is_own = is_own;
        if (!is_own) continue;
        windows->counts.copied++;
        trace_copy(windows->trace, scan->window->base + (uint32_t)(scan->first + places[at]), page_at(scan, places[at]));
    }
}

static uint16_t glance(const struct scan *scan, size_t place, uint64_t number) {
    return (uint16_t)glance_at(number, page_at(scan, place));
}

/* Glances at pages, and fetches what glances at later ones need, so that they needn't wait. */
static void take_glances(struct scan *scan) {
    const struct window *window = scan->window;
    uint16_t places[PART];
    uint64_t numbers[PART];
    page_entry pages[PART];
    const size_t count = find_with(scan, PAGESHARE_WINDOW_FIND_GLANCE, places);
    if (count == 0) return;
    pageshare_process_read_pages(OF(window), scan->first, pages, scan->count);
    pageshare_process_glance_numbers(OF(window), scan->first, places, count, numbers, count);
    for (size_t at = 0; at < count; at++) {
        if (at + AHEAD < count)
            __builtin_prefetch(page_at(scan, places[at + AHEAD]) + glance_place(numbers[at + AHEAD]) * sizeof(uint64_t));
        scan->outcomes[places[at]].glance = glance(scan, places[at], numbers[at]);
        window->windows->counts.fresh += looks_of(&pages[places[at]]) == 0 ? 1 : 0;
    }
}

static void read_pages(struct scan *scan) {
    struct windows *windows = scan->window->windows;
    uint16_t places[PART];
    const size_t count = find_with(scan, PAGESHARE_WINDOW_FIND_READ, places);
    for (size_t at = 0; at < count; at++) {
        const uint8_t *next = page_at(scan, places[at + 1 < count ? at + 1 : at]);
        const uint64_t fingerprint = fingerprint_and_fetch(windows->lender.salt, page_at(scan, places[at]), next);
        scan->outcomes[places[at]].fingerprint = fingerprint;
        scan->outcomes[places[at]].glance = glance(scan, places[at], fingerprint);
    }
    windows->counts.reads += count;
}

/* Does something in a scan: the library writes what is done next with each page. */
static void go_on(struct scan *scan, enum pageshare_process_scan_kind kind) {
    struct pageshare_process_scan its = {.first = scan->first, .look = *scan->look, .kind = (uint8_t)kind};
    its.memory = scan->memory;
    its.outcomes = scan->outcomes;
    its.row = scan->steps;
    its.memory_count = its.outcomes_count = its.row_count = scan->count;
    pageshare_process_scan(OF(scan->window), &its);
}

/* Does what is to be done with the pages of a part, one step of all of them after another. */
static void scan_pages(struct scan *scan) {
    go_on(scan, PAGESHARE_PROCESS_SCAN_BEGIN);
    while (find_due(scan)) {
        find_copies(scan);
        take_glances(scan);
        read_pages(scan);
        go_on(scan, PAGESHARE_PROCESS_SCAN_DONE);
        if (count_bit(scan, PAGESHARE_WINDOW_SCAN_CHANGED) > 0) go_on(scan, PAGESHARE_PROCESS_SCAN_FOLLOW);
    }
}

static void add(struct found *found, size_t number, uint64_t fingerprint) {
    if (found->count == FOUND_MOST) return; /* (a later look finds it again) */
    found->pages[found->count] = (uint32_t)number;
    found->fingerprints[found->count++] = fingerprint;
}

/* Adds what a scan found. */
static void add_found(const struct scan *scan, struct look *look) {
    page_entry pages[PART];
    bool is_read = false;
    for (size_t i = 0; i < scan->count; i++) {
        const unsigned step = step_of(scan, i);
        if (step != PAGESHARE_WINDOW_FIND_IDLE && step != PAGESHARE_WINDOW_FIND_ZEROS) continue;
        if (!is_read) is_read = pageshare_process_read_pages(OF(scan->window), scan->first, pages, scan->count);
        add(step == PAGESHARE_WINDOW_FIND_IDLE ? &look->idle : &look->zeros, scan->first + i, kept_of(&pages[i]));
    }
}

#ifdef WINDOW_TRACE
/* Records what some lent pages show: what was read was the frame's if the page has no copy afterwards. */
static void trace_part(struct window *window, size_t first, size_t count) {
    enum { EACH = 16 };
    unsigned char bytes[WINDOW_PAGE_BYTES] __attribute__((aligned(8)));
    for (size_t page = first + window->windows->counts.looks % EACH; page < first + count; page += EACH) {
        const page_entry its = page_of(window, page);
        if (!is_lent(&its) && !shows_past(&its)) continue;
        copy_page(bytes, address_of(window, page));
        if (!pagemap_is_own(&window->windows->pagemap, address_of(window, page)))
            trace_shows(window->windows->trace, window->base + (uint32_t)page, bytes);
    }
}
#endif

/*
 * Says of a part that KSM leaves it alone. That undoes what KSM has merged there, so a look does it for some parts only while there is
 * something to undo. `*left`: for how many more. With the lock.
 */
static void make_ready(struct window *window, size_t first, size_t count, size_t *left) {
    if (first + count <= window->ready || first > window->ready || *left == 0 || window->ended) return;
    struct pageshare_window_run run = {.first = first};
    while (go_to_run(window, &run, first + count, ITS)) {
        int cause = advice_say(address_of(window, run.first), run.count, MADV_UNMERGEABLE);
        if (cause != 0) window->windows->advice_cause = cause;
        if (cause != 0) return; /* (a later look says it again) */
    }
    window->ready = first + count;
    --*left;
}

/* Without PAGEMAP_SCAN the kernel's page of zeros looks like memory: where it was put in place of what was given back, bytes tell. */
static void leave_out_zeros(const uint8_t *at, const page_entry *pages, size_t count, uint8_t *found) {
    for (size_t i = 0; i < count; i++)
        if (found[i] == PAGE_PRESENT && is_given_back(&pages[i]) && !is_out(&pages[i]) && is_zero(at + bytes_of(i)))
            found[i] = PAGE_NONE;
}

/* Finds which memory pages of a part have, and whether the part is a huge page. Returns 0 or an errno. With the lock. */
static int find_memory(const struct window *window, size_t first, size_t count, uint8_t *memory, bool *is_huge) {
    const struct windows *windows = window->windows;
    const uint8_t *at = address_of(window, first);
    page_entry pages[PART];
    bool over[PART] = {false};
    pageshare_process_read_pages(OF(window), first, pages, count);
    for (size_t i = 0; i < count; i++) over[i] = is_over(&pages[i]);
    /* (what isn't moved to be held might be a file's that the monitor mapped unseen) */
    int cause = pagemap_find(&windows->pagemap, at, count, windows->faults.moves ? over : NULL, memory, is_huge);
    if (cause == 0 && !windows->pagemap.scans) leave_out_zeros(at, pages, count, memory);
    return cause;
}

/* Looks at pages of a part. With the lock. */
static void find_in_part(struct look *look, size_t first, size_t count, bool is_return) {
    struct windows *windows = look->windows;
    struct window *window = look->window;
    uint8_t memory[PART];
    bool is_huge = false;
    size_t own = 0;
    int cause = find_memory(window, first, count, memory, &is_huge);
    if (cause != 0) {
        note_failure(windows, WINDOW_NO_PAGEMAP, cause);
        return;
    }
    for (size_t i = 0; i < count; i++) own += memory[i] != PAGE_NONE ? 1 : 0;
    if (!is_return) settle_part(window, first, own, is_huge);
    struct pageshare_window_look now = look_now(windows);
    now.ready = window->ready;
    now.is_return = is_return;
    struct scan scan = {.window = window, .first = first, .count = count, .look = &now, .memory = memory};
    look->outcome.rests = part_of(window, first).part.rest > 0;
    scan_pages(&scan);
    add_found(&scan, look);
    windows->counts.again += count_bit(&scan, PAGESHARE_WINDOW_SCAN_AGAIN);
    look->outcome.young = (uint32_t)count_bit(&scan, PAGESHARE_WINDOW_SCAN_YOUNG);
    const uint32_t changes = (uint32_t)count_bit(&scan, PAGESHARE_WINDOW_SCAN_CHANGED);
    if (!is_return)
        NOTE_PART(window, first, .kind = PAGESHARE_PROCESS_RESTS, .changes = changes, .own = (uint32_t)own, .look = now);
#ifdef WINDOW_TRACE
    if (windows->trace != NULL) trace_part(window, first, count);
#endif
}

/* Looks at the part that the task names. Returns false if the window has ended. Takes the lock. */
static bool look_in(struct look *look, bool is_return) {
    struct windows *windows = look->windows;
    struct window *window = look->window;
    const size_t part = look->task.part, first = part == 0 ? 0 : part * PART - window->lead, count = rest_of_part(window, first);
    lock_for_look(windows);
    if (part_of(window, first).part.alone > 0) { /* (the part may become whole) */
        unlock_set(windows);
        begin_turn(look);
        lock_for_look(windows);
    }
    bool goes_on = !window->ended && windows->stuck_count == 0 && !windows->is_watched;
    look->outcome.rests = false;
    look->outcome.young = 0;
    if (goes_on) {
        make_ready(window, first, count, &look->unready);
        find_in_part(look, first, count, is_return);
    }
    unlock_set(windows);
    return goes_on;
}

bool look_at_part(struct look *look) { return look_in(look, false); }

bool look_again(struct look *look) { return look_in(look, true); }
