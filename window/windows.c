/* Sets of windows, and their lenders. */
#define _GNU_SOURCE
#include "set.h"
#include <errno.h>
#include <fcntl.h>
#include <sys/mman.h>
#include <sys/stat.h>
#include <unistd.h>

const char *window_status_words(enum window_status status) {
    static const char *const words[] = {
        [WINDOW_OK] = "done",
        [WINDOW_NO_MEMORY] = "no memory for tables",
        [WINDOW_NO_FAULTS] = "no userfaultfd that can guard pages",
        [WINDOW_NO_PAGEMAP] = "the system doesn't tell which pages were copied",
        [WINDOW_LOCKED] = "memory is locked, so nothing can be lent",
        [WINDOW_BAD_RANGE] = "the range is not whole pages of one window",
        [WINDOW_BAD_MEMORY] = "the range is not private anonymous memory of one kind",
        [WINDOW_BAD_LENDER] = "the lender lacks something, or its file is too short or not sealed",
        [WINDOW_HAS_LENDER] = "a lender is attached already",
        [WINDOW_PINNED] = "pages are pinned",
        [WINDOW_NO_MAPPING] = "the system refused a mapping or a guard",
        [WINDOW_STUCK] = "pages that were held can't be put back yet",
        [WINDOW_LENDER_FAILED] = "the lender failed",
        [WINDOW_ADVICE] = "advice or a memory policy was refused",
        [WINDOW_WATCHED] = "a userfaultfd watches the memory, so it is tried again",
    };
    size_t count = sizeof words / sizeof words[0];
    return (size_t)status < count && words[status] != NULL ? words[status] : "unknown";
}

/* Keeps a mapping from children of forks and from huge pages, as windows are kept. */
static bool is_kept_back(void *at, size_t pages) {
    return madvise(at, bytes_of(pages), MADV_DONTFORK) == 0 && advice_begin(at, pages) == 0;
}

/* Makes pages that nobody touches, between two that nobody can touch: joined with other memory they would join no window any more. */
static uint8_t *make_zeros(bool are_reserved) {
    const int kind = MAP_PRIVATE | MAP_ANONYMOUS | (are_reserved ? 0 : MAP_NORESERVE);
    uint8_t *at = map_apart(bytes_of(PART + 2), PROT_NONE, kind, NO_FILE);
    if (at == MAP_FAILED) return NULL;
    uint8_t *zeros = at + bytes_of(1);
    if (is_kept_back(at, PART + 2) && mprotect(zeros, bytes_of(PART), PROT_READ | PROT_WRITE) == 0) return zeros;
    unmap_apart(at, bytes_of(PART + 2));
    return NULL;
}

static void free_zeros(uint8_t *zeros) {
    if (zeros != NULL) unmap_apart(zeros - bytes_of(1), bytes_of(PART + 2));
}

/* Maps the frames' file; for reading alone if the system, which may count each byte that could be written, refuses it otherwise. */
static uint8_t *map_frames(size_t frames, int fd, bool *are_given) {
    void *at = map_apart(bytes_of(frames), PROT_READ | PROT_WRITE, MAP_PRIVATE | MAP_NORESERVE, fd);
    *are_given = at != MAP_FAILED && is_kept_back(at, frames) && madvise(at, bytes_of(frames), MADV_DONTDUMP) == 0;
    if (*are_given) return at;
    if (at != MAP_FAILED) unmap_apart(at, bytes_of(frames));
    at = map_apart(bytes_of(frames), PROT_READ, MAP_SHARED | MAP_NORESERVE, fd);
    return at == MAP_FAILED ? NULL : at;
}

static struct window_result open_parts(struct windows *windows, const struct windows_config *config) {
    static const struct pageshare_process_facts none;
    struct range_facts facts;
    if (!pageshare_process_make(&windows->process, &none)) return result_of(WINDOW_NO_MEMORY, ENOMEM);
    follow_facts(windows);
    int cause = faults_open(&windows->faults, config->faults, config->never_move);
    if (cause != 0) return result_of(WINDOW_NO_FAULTS, cause);
    cause = pagemap_open(&windows->pagemap, config->never_scan);
    if (cause != 0) return result_of(WINDOW_NO_PAGEMAP, cause);
    windows->zeros = make_zeros(false);
    windows->reserved_zeros = make_zeros(true);
    int refused = make_scratch(windows);
    if (windows->scratch == NULL) return result_of(WINDOW_NO_MAPPING, refused);
    /* (with mlockall all new memory is locked, and refuses to be discarded) */
    cause = range_read(&facts, windows->scratch, SCRATCH);
    if (cause != 0) return result_of(WINDOW_NO_PAGEMAP, cause);
    if (facts.is_locked) return result_of(WINDOW_LOCKED, EPERM);
    return refused == 0 ? result_of(WINDOW_OK, 0) : result_of(WINDOW_NO_MAPPING, refused);
}

void follow_limit(struct windows *windows) {
    if (!windows->follows_limit) return;
    windows->mappings_most = windows->counts.mappings_most = (size_t)pageshare_window_mappings_most(mappings_limit());
    follow_facts(windows);
}

static void begin_budget(struct windows *windows, const struct windows_config *config) {
    enum { ALL = 100 };
    windows->has_budget = config->percent > 0;
    unsigned percent = windows->has_budget ? config->percent : ALL;
    pageshare_window_begin(&windows->budget, percent, config->burst, clock_now_ns(), 0);
}

struct window_result windows_make(struct windows **made, const struct windows_config *config) {
    struct windows *windows = table_make(1, sizeof *windows);
    *made = NULL;
    if (windows == NULL) return result_of(WINDOW_NO_MEMORY, ENOMEM);
    pthread_mutex_init(&windows->lock, NULL);
    windows->faults.fd = windows->pagemap.fd = windows->frames_fd = NO_FILE;
    windows->config = *config;
    windows->mappings_most = config->mappings_most;
    begin_budget(windows, config);
    windows->follows_limit = config->mappings_most == 0;
    follow_limit(windows);
    windows->counts.mappings_most = windows->mappings_most;
    windows->counts.pause = WINDOWS_NO_LENDER;
    struct window_result result = open_parts(windows, config);
    if (result.status == WINDOW_OK) *made = windows;
    else windows_free(windows);
    return result;
}

static void close_file(int fd) {
    if (fd >= 0) close(fd);
}

/* The frames' file isn't read any more. What windows show stays mapped. */
static uint8_t *take_frames(struct windows *windows) {
    uint8_t *at = windows->frames_at;
    windows->frames_at = NULL;
    windows->frames_are_given = false;
    return at;
}

static void forget_frames(struct windows *windows) {
    uint8_t *at = take_frames(windows);
    if (at != NULL) unmap_apart(at, bytes_of(windows->lender.frame_count));
    close_file(windows->frames_fd);
    windows->frames_fd = NO_FILE;
    windows->has_lender = false;
}

void windows_free(struct windows *windows) {
    if (windows == NULL) return;
    for (struct window *window = windows->first, *next; window != NULL; window = next) {
        next = window->next;
        if (!window->ended) window_discard(window, 0, window->count);
        free_window(window);
    }
    forget_frames(windows);
    free_places(windows);
    pageshare_process_free(&windows->process);
    close_file(windows->faults.fd);
    close_file(windows->pagemap.fd);
    if (windows->scratch != NULL) unmap_apart(windows->scratch, bytes_of(SCRATCH));
    free_zeros(windows->zeros);
    free_zeros(windows->reserved_zeros);
#ifdef WINDOW_TRACE
    if (windows->trace != NULL) trace_close(windows->trace);
#endif
    pthread_mutex_destroy(&windows->lock);
    table_free(windows, 1, sizeof *windows);
}

/* Whether the lender's file has all frames, and can't be cut short: a thread that reads a frame behind its end would be killed. */
static bool is_whole(const struct window_lender *lender) {
    struct stat stat;
    int seals = fcntl(lender->frames, F_GET_SEALS);
    return fstat(lender->frames, &stat) == 0 && (size_t)stat.st_size >= bytes_of(lender->frame_count) && seals >= 0 &&
           (seals & F_SEAL_SHRINK) != 0;
}

struct window_result windows_attach(struct windows *windows, const struct window_lender *lender) {
    if (windows->has_lender) return result_of(WINDOW_HAS_LENDER, EBUSY);
    bool has_all = lender->ask != NULL && lender->lend != NULL && lender->release != NULL && lender->pages != NULL;
    if (!has_all || lender->frame_count == 0 || lender->frame_count > WINDOW_FRAMES_MOST || !is_whole(lender))
        return result_of(WINDOW_BAD_LENDER, EINVAL);
    int fd = fcntl(lender->frames, F_DUPFD_CLOEXEC, 0);
    if (fd < 0) return result_of(WINDOW_BAD_LENDER, errno);
    bool are_given = false;
    uint8_t *at = map_frames(lender->frame_count, fd, &are_given);
    if (at == NULL) {
        int cause = errno;
        close(fd);
        return result_of(WINDOW_NO_MAPPING, cause);
    }
    lock_for_look(windows);
    windows->lender = *lender;
    windows->frames_fd = fd;
    windows->frames_at = windows->is_over ? NULL : at;
    windows->frames_are_given = are_given && !windows->is_over;
    windows->has_lender = true;
    windows->lender_waits = false;
#ifdef WINDOW_TRACE
    if (windows->config.trace != NULL && windows->trace == NULL)
        windows->trace = trace_open(windows->config.trace, lender->frame_count);
#endif
    bool is_read = windows->frames_at != NULL;
    unlock_set(windows);
    if (!is_read) unmap_apart(at, bytes_of(lender->frame_count));
    return result_of(WINDOW_OK, 0);
}

/* No slot of a part counts any more; what its pages show is of the past. Takes the lock. */
static void detach_part(struct window *window, size_t first) {
    lock_for_look(window->windows);
    NOTE(window, first, rest_of_part(window, first), .kind = PAGESHARE_PROCESS_DETACHED);
    NOTE_PART(window, first, .kind = PAGESHARE_PROCESS_FORGOTTEN);
    unlock_set(window->windows);
}

/* (windows that are made meanwhile come before the first one, and have no slot; the thread that calls this alone frees windows) */
static struct window *first_window(struct windows *windows) {
    lock_for_look(windows);
    struct window *window = windows->first;
    unlock_set(windows);
    return window;
}

static void each_part(struct windows *windows, void (*does)(struct window *window, size_t first)) {
    for (struct window *window = first_window(windows); window != NULL; window = window->next)
        for (size_t first = 0; first < window->count; first += rest_of_part(window, first)) does(window, first);
    windows->awaits_loans = false;
}

/* None of a part's pages was lent that a lender was asked to lend. Takes the lock. */
static void refuse_part(struct window *window, size_t first) {
    const size_t all = rest_of_part(window, first);
    page_entry pages[PART];
    uint32_t numbers[PART];
    uint8_t answers[PART];
    size_t count = 0;
    lock_for_look(window->windows);
    pageshare_process_read_pages(OF(window), first, pages, all);
    for (size_t i = 0; i < all; i++)
        if (belief_of(&pages[i]) == PAGESHARE_WINDOW_COPIED) numbers[count++] = (uint32_t)(first + i);
    LIST(window, count, .kind = PAGESHARE_PROCESS_LOANED, .is_heard = false, .numbers = numbers, .answers = answers);
    unlock_set(window->windows);
}

void windows_taken_up(struct windows *windows) {
    if (windows->awaits_loans) each_part(windows, refuse_part);
}

void windows_detach(struct windows *windows) {
    if (!windows->has_lender) return;
    each_part(windows, detach_part);
    lock_for_look(windows);
    forget_frames(windows);
    windows->counts.pause = WINDOWS_NO_LENDER;
    unlock_set(windows);
}

void windows_tune(struct windows *windows, const struct windows_tuning *tuning) {
    lock_set(windows);
    windows->config.tuning = *tuning;
    unlock_set(windows);
}

void windows_set_pins(struct windows *windows, enum windows_pins pins) {
    lock_set(windows);
    windows->config.pins = pins;
    follow_facts(windows);
    unlock_set(windows);
}

int windows_watch(struct windows *windows) {
    lock_set(windows);
    windows->is_watched = true;
    windows->watches_open++;
    windows->watches_begun++;
    follow_facts(windows);
    int cause = free_stuck(windows);
    unlock_set(windows);
    return cause;
}

void windows_watch_made(struct windows *windows) {
    lock_set(windows);
    windows->watches_open--;
    unlock_set(windows);
}

bool windows_are_watched(struct windows *windows) {
    lock_set(windows);
    bool are_watched = windows->is_watched;
    unlock_set(windows);
    return are_watched;
}

/* (were the frames mapped any longer, the system would make a copy of each where all memory is locked) */
void windows_end(struct windows *windows) {
    lock_set(windows);
    windows->is_over = true;
    follow_facts(windows);
    uint8_t *at = take_frames(windows);
    size_t bytes = bytes_of(windows->lender.frame_count);
    unlock_set(windows);
    if (at != NULL) unmap_apart(at, bytes);
}

int windows_pause(struct windows *windows) {
    lock_set(windows);
    int cause = free_stuck(windows);
    if (cause != 0) unlock_set(windows);
    return cause;
}

void windows_resume(struct windows *windows) { unlock_set(windows); }

/* Counts pages of a window, and what tables it takes: of each page its entry and its pins, and a bit of `cleared`. With the lock. */
static void count_window(const struct window *window, struct windows_counts *counts) {
    const size_t each = sizeof(page_entry) + sizeof(uint16_t), part = sizeof(struct pageshare_process_part);
    counts->table_bytes += sizeof *window + window->count * each + parts_in(window) * part + window->count / 8;
    for (size_t first = 0; first < window->count && !window->ended; first += rest_of_part(window, first)) {
        const struct pageshare_window_counts its = part_of(window, first).counts;
        counts->lent += its.lent;
        counts->zeros_now += its.zeros;
    }
}

void windows_count(struct windows *windows, struct windows_counts *counts) {
    lock_set(windows);
    *counts = windows->counts;
    counts->mappings = pageshare_process_mappings(&windows->process);
    counts->table_bytes = sizeof *windows + bytes_of_places(windows);
    counts->left_mapped = left_mapped();
    for (const struct window *window = windows->first; window != NULL; window = window->next) count_window(window, counts);
    unlock_set(windows);
}
