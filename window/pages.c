/* What windows know of their pages, and what is mapped in their place. */
#define _GNU_SOURCE
#include "set.h"
#include <errno.h>
#include <string.h>
#include <sys/mman.h>
#include <time.h>

void note_failure(struct windows *windows, enum window_status status, int cause) {
    if (windows->result.status == WINDOW_OK) windows->result = result_of(status, cause);
}

void lock_for_look(struct windows *windows) {
    const struct timespec pause = {.tv_nsec = 20000};
    enum { PAUSES = 100 };
    for (int i = 0; i < PAUSES && atomic_load(&windows->waiting) > 0; i++) nanosleep(&pause, NULL);
    pthread_mutex_lock(&windows->lock);
}

void find_pins(struct windows *windows) {
    if (windows->config.find_pins == NULL || windows->config.pins != WINDOWS_PINS_NEVER) return;
    if (windows->config.find_pins(windows->config.find_pins_opaque) == WINDOWS_PINS_NEVER) return;
    windows->config.pins = WINDOWS_PINS_POSSIBLE;
    follow_facts(windows);
}

_Static_assert(WINDOW_SLOT_RESTS - 1 <= UINT32_MAX / WINDOW_SLOT_TOPS, "a slot has a name of 32 bits");

uint64_t slot_number(uint32_t name) { return (uint64_t)(name / WINDOW_SLOT_RESTS) << 32 | name % WINDOW_SLOT_RESTS; }

/* ---- what the library hears ---- */

void follow_facts(struct windows *windows) {
    const struct pageshare_process_facts facts = {.most = windows->mappings_most,
                                                  .elsewhere = windows->transfers_elsewhere,
                                                  .may_pin = windows->config.pins != WINDOWS_PINS_NEVER,
                                                  .locked = windows->is_locked,
                                                  .is_over = windows->is_over || windows->is_watched};
    pageshare_process_set_facts(&windows->process, &facts);
}

void follow_state(struct window *window) {
    const struct pageshare_process_state state = state_of(window);
    pageshare_process_set_state(OF(window), &state);
}

void do_list(const struct window *window, size_t count, struct pageshare_process_list *list) {
    static const uint64_t nothing[PART]; /* what isn't known of the pages (no array may be NULL) */
    if (list->fingerprints == NULL) list->fingerprints = nothing;
    if (list->given == NULL) list->given = (const uint8_t *)nothing;
    if (list->slots == NULL) list->slots = nothing;
    if (list->frames == NULL) list->frames = (const uint32_t *)nothing;
    list->numbers_count = list->answers_count = list->fingerprints_count = count;
    list->given_count = list->slots_count = list->frames_count = count;
    pageshare_process_list(OF(window), list);
}

/* ---- what lies at pages' places ---- */

bool go_to_run(const struct window *window, struct pageshare_window_run *run, size_t end, uint8_t kinds) {
    return pageshare_process_next_run(OF(window), run->first + run->count, end, kinds, run);
}

bool has_kind(const struct window *window, size_t first, size_t end, uint8_t kinds) {
    struct pageshare_window_run run = {.first = first};
    return go_to_run(window, &run, end, kinds);
}

bool has_kind_between(const struct window *window, const uint8_t *begin, const uint8_t *end, uint8_t kinds) {
    const uint8_t *at = window->at, *stop = address_of(window, window->count);
    if (window->ended || begin >= stop || end <= at) return false;
    size_t first = begin > at ? (size_t)(begin - at) / WINDOW_PAGE_BYTES : 0;
    size_t behind = end < stop ? ((size_t)(end - at) + WINDOW_PAGE_BYTES - 1) / WINDOW_PAGE_BYTES : window->count;
    return has_kind(window, first, behind, kinds);
}

size_t run_of_its(const struct window *window, size_t first, size_t most, bool *is_its) {
    struct pageshare_window_run other = {.first = first};
    *is_its = has_kind(window, first, first + 1, ITS);
    const bool ends = go_to_run(window, &other, first + most, *is_its ? PAGESHARE_WINDOW_KIND_GONE : ITS);
    return ends ? other.first - first : most;
}

void note_moved(struct window *window, size_t first, size_t count) {
    NOTE(window, first, count, .kind = PAGESHARE_PROCESS_MOVED_THERE);
    note_cleared(window, first, count, false);
}

/* Whether what is put in the place of pages can be a copy of a mapping that is there already, with all that was said of it. */
static const uint8_t *source_of(const struct window *window, uint32_t frame, int protection) {
    const struct windows *windows = window->windows;
    if (!window->advice.dont_fork || protection != (PROT_READ | PROT_WRITE)) return NULL;
    if (frame == ZEROS) return window->advice.is_reserved ? windows->reserved_zeros : windows->zeros;
    return windows->frames_are_given ? windows->frames_at + bytes_of(frame) : NULL;
}

enum { BITS = 8 /* of `cleared` in a byte */ };

bool is_cleared(const struct window *window, size_t page) { return (window->cleared[page / BITS] >> page % BITS & 1) != 0; }

void note_cleared(struct window *window, size_t first, size_t count, bool are_cleared) {
    for (size_t page = first; page < first + count; page++) {
        if (is_cleared(window, page) != are_cleared) window->cleared[page / BITS] ^= (uint8_t)(1 << page % BITS);
    }
}

void note_apart(struct window *window, size_t first, size_t count) {
    bool written[PART];
    page_entry pages[PART];
    int cause = pagemap_find_copies(&window->windows->pagemap, address_of(window, first), count, written);
    if (cause != 0) memset(written, true, sizeof written); /* (too many mappings may be counted, but not too few) */
    pageshare_process_read_pages(OF(window), first, pages, count);
    if (is_moved(&pages[0]) || memchr(written, true, count) == NULL) return;
    note_moved(window, first, count);
    for (size_t i = 0; i < count; i++)
        if (is_given_back(&pages[i]) && !written[i])
            pageshare_process_note_page(OF(window), first + i, PAGESHARE_PROCESS_GIVEN_BACK, true);
}

int map_pages(struct window *window, size_t first, size_t count, uint32_t frame, int protection) {
    bool is_file = frame != ZEROS, has_left = !has_kind(window, first, first + 1, IN_WINDOW);
    const uint8_t *source = source_of(window, frame, protection);
    void *at = address_of(window, first);
    int cause = source != NULL ? mapping_copy(at, source, count) : ENOENT;
    const bool are_copies = cause == 0;
    /* (zeros may be a child's for a moment) */
    if (cause != 0)
        cause = is_file ? mapping_put(at, count, protection, window->windows->frames_fd, frame)
                        : mapping_put_zeros(at, count, protection, window->advice.is_reserved);
    if (cause != 0) return cause;
    /* (what the system refuses to say of zeros keeps it from joining them with what is beside them) */
    bool is_said = has_left || (is_file && are_copies) || say_again(window, first, count, is_file, are_copies);
    if (is_file) NOTE(window, first, count, .kind = PAGESHARE_PROCESS_COVERED, .frame = frame);
    else NOTE(window, first, count, .kind = PAGESHARE_PROCESS_ZEROS_MAPPED, .flag = is_said);
    note_cleared(window, first, count, false);
    return 0;
}

bool say_again(struct window *window, size_t first, size_t count, bool is_file, bool are_copies) {
    /* (what map_frames and make_zeros say of their mappings) */
    static const struct advice of_frames = {.dont_fork = true, .no_huge = true, .dont_dump = true},
                               of_zeros = {.dont_fork = true, .no_huge = true};
    const struct advice *has = !are_copies ? NULL : is_file ? &of_frames : &of_zeros;
    int cause = advice_set(&window->advice, has, address_of(window, first), count, is_file ? MEMORY_OF_FRAMES : MEMORY_SMALL);
    if (cause != 0) window->windows->advice_cause = cause;
    return cause == 0;
}

int make_scratch(struct windows *windows) {
    const int rights = PROT_READ | PROT_WRITE, kind = MAP_PRIVATE | MAP_ANONYMOUS | MAP_NORESERVE;
    uint8_t *at = windows->scratch == NULL ? map_apart(bytes_of(SCRATCH), rights, kind, NO_FILE)
                                           : mmap(windows->scratch, bytes_of(SCRATCH), rights, kind | MAP_FIXED, NO_FILE, 0);
    if (at == MAP_FAILED) return errno;
    windows->scratch = at;
    windows->scratch_used = 0;
    windows->has_scratch = false;
    int cause = advice_begin(at, SCRATCH);
    if (cause != 0) return cause;
    /* (a page that a child has, too, can't be moved back; and the kernel moves pages only from where there was one) */
    if (madvise(at, bytes_of(SCRATCH), MADV_DONTFORK) < 0) return errno;
    *at = 1;
    if (madvise(at, bytes_of(SCRATCH), MADV_DONTNEED) < 0) return errno;
    /* (pages are only moved to what is watched. Were it for missing pages, mlockall would wait here for ever.) */
    if (windows->faults.moves) cause = faults_watch(&windows->faults, at, SCRATCH, FAULTS_OF_WRITES);
    windows->has_scratch = cause == 0;
    return cause;
}

int clear_scratch(struct windows *windows) {
    if (windows->stuck_count > 0 || windows->scratch_used == 0) return 0;
    if (madvise(windows->scratch, bytes_of(SCRATCH), MADV_DONTNEED) < 0) return errno;
    windows->scratch_used = 0;
    return 0;
}

void add_stuck(struct window *window, size_t page, uint8_t byte, size_t scratch) {
    struct windows *windows = window->windows;
    windows->stuck[windows->stuck_count++] =
        (struct stuck){.window = window, .page = (uint32_t)page, .byte = byte, .scratch = (uint32_t)scratch};
}

int let_waiters_go(struct window *window, size_t first, size_t count) {
    struct windows *windows = window->windows;
    int cause = faults_end_watch(&windows->faults, address_of(window, first), count);
    for (size_t page = first; page < first + count && cause != 0 && windows->stuck_count < PART; page++)
        add_stuck(window, page, PAGESHARE_WINDOW_PLACE_GUARDED, 0);
    return cause;
}
