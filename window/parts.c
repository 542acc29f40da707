/* Parts of windows: whole, as the system's huge pages have them, or split, so that pages of them can be lent. */
#define _GNU_SOURCE
#include "set.h"
#include <errno.h>
#include <sys/mman.h>

enum {
    PAUSE_LOOKS = 16, /* looks at a part until it may change again, so that none goes to and fro */
    ALONE_LOOKS = 8,  /* a split part becomes whole after so many looks that found next to nothing shared there, */
    ALONE_PART = 4    /* which is less than a so many-th of the pages that split it */
};

/* The first page of the first part that can be whole, and how many such parts there are. */
static size_t full_parts(const struct window *window, size_t *count) {
    size_t first = window->lead > 0 ? rest_of_part(window, 0) : 0;
    *count = (window->count - first) / PART;
    return first;
}

int begin_parts(struct window *window) {
    size_t count = 0, first = full_parts(window, &count), end = first + count * PART;
    lock_set(window->windows);
    window->keeps_huge = window->windows->config.tuning.huge_from > 0;
    unlock_set(window->windows);
    window->keeps_huge = window->keeps_huge && advice_allows_huge(&window->found);
    if (!window->keeps_huge || count == 0) return advice_begin(window->at, window->count);
    int cause = first > 0 ? advice_begin(window->at, first) : 0;
    if (cause == 0 && end < window->count) cause = advice_begin(address_of(window, end), window->count - end);
    return cause;
}

void note_whole_parts(struct window *window) {
    size_t count = 0, first = full_parts(window, &count), end = first + (window->keeps_huge ? count * PART : 0);
    for (size_t page = first; page < end; page += PART) NOTE_PART(window, page, .kind = PAGESHARE_PROCESS_WHOLE, .flag = true);
}

void count_parts(struct window *window, bool is_more) {
    struct windows_counts *counts = &window->windows->counts;
    size_t count = 0, whole = 0, huge = 0, first = full_parts(window, &count);
    for (size_t page = first; page < first + count * PART; page += PART) {
        const struct pageshare_window_part part = part_of(window, page).part;
        whole += part.whole ? 1 : 0;
        huge += part.is_huge ? 1 : 0;
    }
    size_t split = window->keeps_huge ? count - whole : 0;
    counts->parts_whole += is_more ? whole : (size_t)0 - whole;
    counts->parts_split += is_more ? split : (size_t)0 - split;
    counts->parts_huge += is_more ? huge : (size_t)0 - huge;
}

/* Notes whether a part is a huge page. */
static void note_huge(const struct window *window, size_t first, bool is_huge) {
    if (is_huge == part_of(window, first).part.is_huge) return;
    window->windows->counts.parts_huge += is_huge ? 1 : (size_t)-1;
    NOTE_PART(window, first, .kind = PAGESHARE_PROCESS_HUGE, .flag = is_huge);
}

int window_say_huge(struct window *window, size_t first, size_t count, bool may) {
    struct windows *windows = window->windows;
    int cause = 0;
    if (first > window->count || count > window->count - first) return EINVAL;
    lock_set(windows);
    for (size_t page = first, run = 0; page < first + count; page += run) {
        run = rest_of_part(window, page);
        if (run > first + count - page) run = first + count - page;
        bool is_said = has_kind(window, page, page + 1, ITS) && (!may || (run == PART && part_of(window, page).part.whole));
        int refused = is_said ? advice_say(address_of(window, page), run, may ? MADV_HUGEPAGE : MADV_NOHUGEPAGE) : 0;
        if (refused != 0) cause = refused;
    }
    count_parts(window, false);
    if (count == window->count) window->found.huge = window->advice.huge = may;
    if (count == window->count) window->found.no_huge = window->advice.no_huge = !may;
    window->keeps_huge = may && windows->config.tuning.huge_from > 0 && advice_allows_huge(&window->found);
    count_parts(window, true);
    unlock_set(windows);
    return cause;
}

static void set_whole(struct window *window, size_t first, bool is_whole) {
    struct windows_counts *counts = &window->windows->counts;
    NOTE_PART(window, first, .kind = PAGESHARE_PROCESS_WHOLE, .flag = is_whole);
    note_huge(window, first, is_whole);
    counts->parts_whole += is_whole ? 1 : (size_t)-1;
    if (window->keeps_huge) counts->parts_split -= is_whole ? 1 : (size_t)-1;
    counts->made_whole += is_whole ? 1 : 0;
    counts->splits += is_whole ? 0 : 1;
}

/* ---- whole parts are split ---- */

static void split(struct window *window, size_t first, bool is_huge) {
    page_entry pages[PART];
    int cause = 0;
    /* (what has left the window is the monitor's) */
    struct pageshare_window_run run = {.first = first};
    while (cause == 0 && go_to_run(window, &run, first + PART, IN_WINDOW))
        cause = advice_split(address_of(window, run.first), run.count, is_huge);
    if (cause != 0) {
        window->windows->advice_cause = cause;
        return;
    }
    pageshare_process_read_pages(OF(window), first, pages, PART);
    for (size_t i = 0; i < PART; i++)
        if (is_seen(&pages[i])) pageshare_process_note_page(OF(window), first + i, PAGESHARE_PROCESS_ASKED_AT_ONCE, false);
    set_whole(window, first, false);
}

/* ---- split parts become whole ---- */

/* An empty huge page of which is said what was said of the window; NULL if the system has none to give. */
static uint8_t *make_room(const struct window *window) {
    const int kind = MAP_PRIVATE | MAP_ANONYMOUS | MAP_NORESERVE;
    const size_t bytes = bytes_of(PART);
    uint8_t *all = map_apart(2 * bytes, PROT_READ | PROT_WRITE, kind, NO_FILE);
    if (all == MAP_FAILED) return NULL;
    size_t before = (bytes - (uintptr_t)all % bytes) % bytes;
    uint8_t *room = all + before;
    if (before > 0) unmap_apart(all, before);
    unmap_apart(room + bytes, bytes - before);
    if (advice_set(&window->advice, NULL, room, PART, MEMORY_HUGE) == 0) {
        *(volatile uint8_t *)room = 0;
        if (pagemap_is_huge(&window->windows->pagemap, room)) return room;
    }
    unmap_apart(room, bytes);
    return NULL;
}

/*
 * Guards a part's pages against writes, all of them: a page without memory couldn't be guarded, so there is none when that begins. Devices
 * are looked for only then, since pinning a page from now on, to write to it, waits. Returns 0 or an errno.
 */
static int guard_part(struct window *window, size_t first) {
    struct windows *windows = window->windows;
    uint8_t *at = address_of(window, first);
    int cause = advice_say(at, PART, MADV_UNMERGEABLE); /* (KSM lifts a guard) */
    if (cause == 0 && madvise(at, bytes_of(PART), MADV_POPULATE_READ) < 0) cause = errno;
    if (cause == 0) cause = faults_watch(&windows->faults, at, PART, FAULTS_OF_WRITES);
    if (cause == 0) cause = faults_protect(&windows->faults, at, PART);
    find_pins(windows);
    if (cause == 0 && may_pin(windows)) cause = EBUSY;
    return cause == 0 ? pagemap_are_guarded(&windows->pagemap, at, PART) : cause;
}

/* Notes that all pages of a part have memory of their own, in one mapping. */
static void note_one_memory(struct window *window, size_t first) {
    struct windows *windows = window->windows;
    struct pageshare_window_run run = {.first = first};
    while (go_to_run(window, &run, first + PART, OVER_FRAMES)) {
        windows->counts.taken_home += run.count;
        for (size_t page = run.first; page < run.first + run.count; page++)
            trace_copy(windows->trace, window->base + (uint32_t)page, address_of(window, page));
    }
    NOTE(window, first, PART, .kind = PAGESHARE_PROCESS_ONE_MEMORY);
    note_cleared(window, first, PART, false);
}

/*
 * Copies a part to a huge page, and puts that in its place in one step. What fails before that step changes nothing: the copy is given up.
 * Nothing is put back in any case, so no page can be lost on the way.
 */
static bool exchange(struct window *window, size_t first, uint8_t *room) {
    struct windows *windows = window->windows;
    uint8_t *at = address_of(window, first);
    uint64_t begun = clock_now_ns();
    int cause = guard_part(window, first);
    for (size_t i = 0; i < PART && cause == 0; i++) copy_page(room + bytes_of(i), at + bytes_of(i));
    trace_dawdle();
    if (cause == 0 && mremap(room, bytes_of(PART), bytes_of(PART), MREMAP_MAYMOVE | MREMAP_FIXED, at) == MAP_FAILED)
        cause = errno;
    if (cause == 0) note_one_memory(window, first);
    int kept = let_waiters_go(window, first, PART);
    if (kept != 0) note_failure(windows, WINDOW_STUCK, kept);
    note_hold(windows, begun, PART);
    return cause == 0;
}

static void make_whole(struct window *window, size_t first) {
    uint8_t *room = make_room(window);
    bool is_whole = room != NULL && exchange(window, first, room);
    if (is_whole) set_whole(window, first, true);
    else window->windows->counts.not_made_whole++;
    if (!is_whole && room != NULL) unmap_apart(room, bytes_of(PART));
}

/* ---- which of that is done ---- */

/* What a look has found of a part, as if none of its pages were held or kept from being lent, and the system had mappings for all. */
static struct pageshare_window_part_look found_of(const struct window *window, size_t first, size_t own, bool is_huge) {
    const struct windows *windows = window->windows;
    bool may_be_huge = window->keeps_huge && windows->pagemap.scans && first + PART <= window->ready;
    return (struct pageshare_window_part_look){.own = (uint32_t)own,
                                               .shareable = part_of(window, first).counts.shareable,
                                               .is_huge = is_huge,
                                               .may_be_huge = may_be_huge,
                                               .may_lend = can_lend(window),
                                               .has_mappings = true,
                                               .may_pin = may_pin(windows),
                                               .is_loose = true,
                                               .is_movable = true};
}

/* The numbers by which parts change. */
static struct pageshare_window_part_config config_of(const struct windows *windows) {
    return (struct pageshare_window_part_config){.huge_from = windows->config.tuning.huge_from,
                                                 .alone_part = ALONE_PART,
                                                 .alone = windows->config.never_wait ? 1 : ALONE_LOOKS,
                                                 .pause = windows->config.never_wait ? 0 : PAUSE_LOOKS};
}

/* What is to be done with a part: the proved library says so. Its pages are looked at only if something may be. */
static unsigned next_of_part(struct window *window, size_t first, size_t own, bool is_huge) {
    struct windows *windows = window->windows;
    struct pageshare_process_part_notice notice = {
        .kind = PAGESHARE_PROCESS_SETTLED, .config = config_of(windows), .found = found_of(window, first, own, is_huge)};
    const struct pageshare_window_part before = part_of(window, first).part;
    struct pageshare_window_part wanted = before;
    unsigned order = pageshare_window_next_of_part(&wanted, &notice.config, &notice.found);
    if (order != PAGESHARE_WINDOW_STAY) { /* (then it is found out whether that is so) */
        notice.found.has_mappings = has_mappings(windows, PART);
        notice.found.is_loose = MAY(window, first, PART, .kind = PAGESHARE_PROCESS_GIVE_UP);
        notice.found.is_movable = MAY(window, first, PART, .kind = PAGESHARE_PROCESS_EXCHANGE);
    }
    if (order == PAGESHARE_WINDOW_SPLIT && !notice.found.has_mappings) note_crowded(windows, notice.found.shareable);
    order = note_part(window, first, &notice);
    bool is_due = before.alone < notice.config.alone && part_of(window, first).part.alone >= notice.config.alone;
    if (is_due && order == PAGESHARE_WINDOW_STAY) windows->counts.not_made_whole++;
    return order;
}

void settle_part(struct window *window, size_t first, size_t own, bool is_huge) {
    const struct pageshare_window_part part = part_of(window, first).part;
    note_huge(window, first, is_huge && window->windows->pagemap.scans && part.whole);
    if (rest_of_part(window, first) < PART || window->ends || (!part.whole && (part.left > 0 || !window->keeps_huge))) return;
    unsigned order = next_of_part(window, first, own, is_huge);
    if (order == PAGESHARE_WINDOW_STAY) return;
    NOTE_PART(window, first, .kind = PAGESHARE_PROCESS_WOKEN);
    if (order == PAGESHARE_WINDOW_SPLIT) split(window, first, is_huge);
    else make_whole(window, first);
}
