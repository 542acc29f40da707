#define _GNU_SOURCE
#include "sharing.h"
#include "connection.h"
#include "counts_file.h"
#include "filter.h"
#include "ranges.h"
#include "signals.h"
#include "trouble.h"
#include <fcntl.h>
#include <stdatomic.h>
#include <sys/mman.h>
#include <sys/resource.h>
#include <unistd.h>

enum {
    LEAST_BYTES = 65536,    /* a range that is smaller is no window: it saves nothing */
    PART_BYTES = 1 << 18,   /* of a range, that leave its window at once when all do */
    REPORT_BYTES = 1 << 20, /* and of one that is smaller than that nothing is printed */
    REPORTS_MOST = 16,      /* lines of the process on standard error in all */
    SPARE_DESCRIPTORS = 32, /* the library's descriptors are among so many last ones */
    WATCH_APART = 100,      /* what is watched is read again after so many times as long as that takes */
    BITS = 8
};
static const uint64_t settled_ns = 1000000000; /* a range is a window when nothing was said of it for so long */

static pthread_mutex_t lock = PTHREAD_MUTEX_INITIALIZER; /* round the ranges */
static _Atomic(struct windows *) windows;
static atomic_int owner;     /* the process that shares, or 0 */
static atomic_bool over;     /* lending has ended for good */
static atomic_bool all_home; /* and no page shows a frame */
static atomic_int worst;     /* an enum devices: the worst that was seen */
static atomic_int reported;
static atomic_uchar owned[DESCRIPTORS_MOST / BITS];
/* (the model needs no call of the C library, so this is right in any thread at any time) */
static _Thread_local int inside __attribute__((tls_model("initial-exec")));

static atomic_int inmate; /* the thread that stays inside, or 0 */
static atomic_int holder; /* the thread that has the lock, or 0 */

bool sharing_is_inside(void) { return inside > 0; }
bool sharing_is_inside_of(int thread) { return thread == atomic_load(&inmate) || thread == atomic_load(&holder); }
void sharing_stay_inside(void) {
    atomic_store(&inmate, gettid());
    inside++;
}

static bool is_owner(void) {
    int process = atomic_load(&owner);
    return process != 0 && process == getpid();
}

/* One line on standard error, and not very many of them. */
static void say(const char *what, size_t bytes, const char *why) {
    if (atomic_fetch_add(&reported, 1) < REPORTS_MOST) log_line("%s of %zu MiB: %s", what, bytes >> 20, why);
}

/* The same of memory of which nothing is lent, also for who asks later. */
static void say_none(size_t bytes, const char *why) {
    say("nothing is lent", bytes, why);
    counts_file_note(why);
}

/* ---- descriptors ---- */

int sharing_own(int descriptor) {
    struct rlimit limit;
    if (descriptor < 0) return descriptor;
    rlim_t most = getrlimit(RLIMIT_NOFILE, &limit) == 0 && limit.rlim_cur < DESCRIPTORS_MOST ? limit.rlim_cur : DESCRIPTORS_MOST;
    int moved = most > 2 * SPARE_DESCRIPTORS
                    ? (int)syscall(SYS_fcntl, descriptor, F_DUPFD_CLOEXEC, (long)most - SPARE_DESCRIPTORS)
                    : NOTHING;
    if (moved >= 0) {
        syscall(SYS_close, descriptor);
        descriptor = moved;
    }
    if (descriptor < DESCRIPTORS_MOST) atomic_fetch_or(&owned[descriptor / BITS], (unsigned char)(1 << descriptor % BITS));
    return descriptor;
}

bool sharing_owns(int descriptor) {
    if (descriptor < 0 || descriptor >= DESCRIPTORS_MOST) return false;
    return (atomic_load(&owned[descriptor / BITS]) >> descriptor % BITS & 1) != 0 && is_owner();
}

void sharing_disown(int descriptor) {
    if (descriptor < 0 || descriptor >= DESCRIPTORS_MOST) return;
    atomic_fetch_and(&owned[descriptor / BITS], (unsigned char)~(1 << descriptor % BITS));
}

/* ---- ranges ---- */

static _Thread_local sigset_t signals_before __attribute__((tls_model("initial-exec")));

/* What this thread does is the library's, and no handler of a signal runs in between. */
static void step_in(void) {
    if (inside == 0) signals_hold(&signals_before);
    inside++;
}

static void step_out(void) {
    const int cause = errno;
    if (--inside == 0) signals_let(&signals_before);
    errno = cause;
}

/* Whether this thread could be cancelled before it took the lock. */
static _Thread_local int could_cancel __attribute__((tls_model("initial-exec")));
static _Thread_local int number __attribute__((tls_model("initial-exec"))); /* of this thread, or 0: it isn't known yet */

/* Threads that wait for the lock, and how often it was taken: who takes it again and again lets those go first that wait. */
static atomic_uint waiting, taken;

/* All that concerns ranges is done between these two. A thread that was cancelled there would keep the lock for ever. */
static void enter(void) {
    int before = PTHREAD_CANCEL_ENABLE;
    step_in();
    pthread_setcancelstate(PTHREAD_CANCEL_DISABLE, &before);
    if (number == 0) number = gettid();
    atomic_fetch_add(&waiting, 1);
    pthread_mutex_lock(&lock);
    atomic_fetch_sub(&waiting, 1);
    atomic_fetch_add(&taken, 1);
    atomic_store(&holder, number);
    could_cancel = before;
}

/* Lets threads go first that wait for the lock. (On a busy computer one that is woken may get a processor some time later.) */
static void give_way(void) {
    const uint64_t most_ns = 1000000000, begun_ns = now_ns();
    const struct timespec pause = {.tv_nsec = 20000};
    const unsigned wait = atomic_load(&waiting), before = atomic_load(&taken);
    while (atomic_load(&waiting) > 0 && atomic_load(&taken) - before < wait && now_ns() - begun_ns < most_ns)
        nanosleep(&pause, NULL);
}

static void leave(void) {
    int before = could_cancel;
    atomic_store(&holder, 0);
    pthread_mutex_unlock(&lock);
    pthread_setcancelstate(before, NULL);
    step_out();
}

/* The end of a range of whole pages, as the system rounds it. */
static uint8_t *end_of(uint8_t *at, size_t bytes) { return at + (bytes + PAGE - 1) / PAGE * PAGE; }

static bool is_aligned(const void *at) { return (uintptr_t)at % PAGE == 0; }

bool sharing_meets(const void *at, size_t bytes) {
    const uint8_t *begin = at, *end = begin + bytes;
    if (inside || !ranges_near(begin, end)) return false;
    if (!is_owner()) return false; /* a child after a fork: it has no windows */
    enter();
    bool meets = ranges_next(begin, end).range != NULL;
    leave();
    return meets;
}

/* Ends a window of which no range is left. (One that can't end now has no page any more, and does nobody harm.) */
static void end_unused(struct window *window) {
    if (window && !ranges_are_of(window)) window_free(window, WINDOW_TAKE_HOME);
}

/* What a call that failed is to set errno to. */
static int errno_of(struct window_result result) { return result.cause ? result.cause : ENOMEM; }
static int cause_of(struct window_result result) { return result.status == WINDOW_OK ? 0 : errno_of(result); }

/* ---- what the monitor does ---- */

/* Advice on memory that is no window's. Returns 0 or an errno. */
static int advise_other(void *at, size_t bytes, int advice) { return syscall(SYS_madvise, at, bytes, advice) == 0 ? 0 : errno; }

/* Gives up the content of a piece. Returns 0 or an errno. */
static int discard_piece(const struct piece *piece, int advice) {
    size_t first = piece->first, count = piece->bytes / PAGE;
    int cause = 0;
    if (!piece->window) return advise_other(piece->at, piece->bytes, advice);
    for (size_t done = 0, run = 0; done < count; done += run) {
        bool is_its = false;
        run = window_run(piece->window, first + done, count - done, &is_its);
        int refused = is_its ? cause_of(window_discard(piece->window, first + done, run))
                             : advise_other(piece->at + done * PAGE, run * PAGE, advice);
        if (refused != 0) cause = refused;
    }
    return cause;
}

/* Gives advice piece by piece, and by the system between them. Returns 0, or -1 with errno. Takes the lock. */
static int advise_each(void *from, size_t bytes, int advice, int does(const struct piece *piece, int advice)) {
    uint8_t *at = from, *end = end_of(at, bytes);
    int cause = 0;
    if (!is_aligned(at)) return (errno = EINVAL, -1);
    enter();
    while (at < end) {
        const struct piece piece = ranges_next(at, end);
        int before = piece.at > at ? advise_other(at, (size_t)(piece.at - at), advice) : 0;
        int refused = piece.range ? does(&piece, advice) : 0;
        if (before != 0) cause = before;
        if (refused != 0) cause = refused;
        at = piece.at + piece.bytes;
    }
    leave();
    if (cause == 0) return 0;
    errno = cause;
    return -1;
}

int sharing_discard(void *from, size_t bytes, int advice) { return advise_each(from, bytes, advice, discard_piece); }

typedef struct window_result leave_window(struct window *window, size_t first, size_t count, size_t *kept);

/* A piece of a range leaves its window by this call. `*kept` counts pages whose copies stay over frames: then it stays a range. */
static struct window_result leave_by(leave_window *call, const struct piece *piece, size_t *kept) {
    struct window_result result = {.status = WINDOW_OK};
    *kept = 0;
    if (!piece->window) {
        if (!ranges_take_out(piece)) ranges_remove(piece);
        return result;
    }
    result = call(piece->window, piece->first, piece->bytes / PAGE, kept);
    /* (if there is no place for what is left, the range goes on with pages that aren't its window's) */
    if (result.status == WINDOW_OK && *kept == 0 && ranges_take_out(piece)) end_unused(piece->window);
    return result;
}

/* What is done with a part of a range, with the lock. Adds to `*kept` how many pages stay over frames for good. */
typedef struct window_result part_do(const struct piece *piece, size_t *kept);

/* Does it with the next part before `end`, from `*at` on, which becomes its end. Returns false if there is none. With the lock. */
static bool do_part(uint8_t **at, uint8_t *end, part_do *does, struct window_result *result, size_t *kept) {
    struct piece piece = ranges_next(*at, end);
    size_t most = PART_BYTES - (uintptr_t)piece.at % PART_BYTES;
    if (!piece.range) return false;
    if (piece.bytes > most) piece.bytes = most;
    *at = piece.at + piece.bytes;
    *result = does(&piece, kept);
    return true;
}

/* Does it with all ranges between two addresses, part for part: between two of them other calls go on. Takes the lock. */
static struct window_result do_parts(uint8_t *at, uint8_t *end, part_do *does, size_t *kept) {
    struct window_result result = {.status = WINDOW_OK};
    *kept = 0;
    for (bool is_any = true; is_any && result.status == WINDOW_OK;) {
        give_way();
        enter();
        is_any = do_part(&at, end, does, &result, kept);
        leave();
    }
    return result;
}

static struct window_result do_all(part_do *does) {
    size_t kept;
    return do_parts(NULL, (uint8_t *)(UINTPTR_MAX / PAGE * PAGE), does, &kept);
}

/* The same by window_leave: the monitor may protect and lock the piece, and says no advice of it that counts. */
static struct window_result cut(const struct piece *piece, size_t *kept) {
    size_t found;
    struct window_result result = leave_by(window_leave, piece, &found);
    *kept += found;
    return result;
}

/* Says of each range that meets these addresses that lending ends there. Takes the lock. */
static void say_ends(uint8_t *at, uint8_t *end, const char *why) {
    enter();
    for (struct piece piece; (piece = ranges_next(at, end)).range != NULL; at = piece.at + piece.bytes)
        if (piece.bytes >= REPORT_BYTES) say("lending ends", piece.bytes, why);
    leave();
}

enum sharing_left sharing_leave(void *from, size_t bytes, const char *why) {
    uint8_t *at = from, *end = end_of(at, bytes);
    size_t kept = 0;
    if (!is_aligned(at)) return SHARING_LEFT; /* the system refuses it */
    say_ends(at, end, why);
    struct window_result result = do_parts(at, end, cut, &kept);
    if (result.status == WINDOW_OK) return kept == 0 ? SHARING_LEFT : SHARING_KEPT;
    say("a part of a window can't leave it", bytes, window_status_words(result.status));
    errno = errno_of(result);
    return SHARING_REFUSED;
}

/* What is left of ranges and windows after something else was put in the place of a range. The windows are paused. */
static size_t forget(uint8_t *at, uint8_t *end, struct window **unused) {
    size_t count = 0;
    for (struct piece piece; (piece = ranges_next(at, end)).range != NULL;) {
        at = piece.at + piece.bytes;
        if (piece.window) window_forget(piece.window, piece.first, piece.bytes / PAGE);
        bool is_out = ranges_take_out(&piece);
        if (!is_out && !piece.window) ranges_remove(&piece);
        if (piece.window && !ranges_are_of(piece.window)) unused[count++] = piece.window;
    }
    return count;
}

static bool are_mapped(uint8_t *at, size_t bytes) { return msync(at, bytes, MS_ASYNC) == 0 || errno != ENOMEM; }

/*
 * The same after a call that failed: before Linux 6.12 it may have unmapped what was there. Only pages that aren't there any more are
 * forgotten. Beside the ranges there may always have been holes, which say nothing of them.
 */
static size_t forget_unmapped(uint8_t *at, uint8_t *end, struct window **unused) {
    size_t count = 0;
    for (struct piece piece; (piece = ranges_next(at, end)).range != NULL;) {
        at = piece.at + piece.bytes;
        if (are_mapped(piece.at, piece.bytes)) continue;
        for (uint8_t *page = piece.at; page < at; page += PAGE)
            if (!are_mapped(page, PAGE)) count += forget(page, page + PAGE, unused + count);
    }
    return count;
}

long sharing_replace(void *from, size_t bytes, long (*call)(void *with), void *with) {
    struct window *unused[RANGES_MOST];
    size_t count = 0;
    if (!is_aligned(from)) return call(with); /* the system refuses it */
    enter();
    struct windows *set = atomic_load(&windows);
    int cause = set ? windows_pause(set) : 0;
    if (cause != 0) {
        leave();
        errno = cause;
        return -1;
    }
    long status = call(with);
    cause = errno;
    count = (status != -1 ? forget : forget_unmapped)(from, end_of(from, bytes), unused);
    if (set) windows_resume(set);
    for (size_t i = 0; i < count; i++) end_unused(unused[i]);
    leave();
    errno = cause;
    return status;
}

int sharing_advise(void *from, size_t bytes, int advice) {
    uint8_t *at = from, *end = end_of(at, bytes);
    struct window_result result = {.status = WINDOW_OK};
    struct piece piece;
    size_t kept = 0;
    if (!is_aligned(at)) return (errno = EINVAL, -1);
    enter();
    while (result.status == WINDOW_OK && (piece = ranges_next(at, end)).range != NULL) {
        at = piece.at + piece.bytes;
        piece.range->said = now_ns();
        if (!piece.window) continue;
        bool is_all = ranges_are_all(&piece);
        result = is_all ? window_advise(piece.window, advice) : leave_by(window_cut, &piece, &kept);
        /* (a child may not have pages over frames: nobody would keep it from uncovering them) */
        if (!is_all && advice == MADV_DOFORK && kept > 0)
            result = (struct window_result){.status = WINDOW_PINNED, .cause = EAGAIN};
    }
    leave();
    if (advice == MADV_DOFORK) say("nothing is lent", bytes, "children inherit it (MADV_DOFORK)");
    if (result.status == WINDOW_OK) return (int)syscall(SYS_madvise, from, bytes, advice);
    errno = errno_of(result);
    return -1;
}

static int say_huge(const struct piece *piece, int advice) {
    piece->range->said = now_ns();
    if (!piece->window) return advise_other(piece->at, piece->bytes, advice);
    return window_say_huge(piece->window, piece->first, piece->bytes / PAGE, advice == MADV_HUGEPAGE);
}

int sharing_say_huge(void *from, size_t bytes, bool may) {
    return advise_each(from, bytes, may ? MADV_HUGEPAGE : MADV_NOHUGEPAGE, say_huge);
}

/* With the lock. */
static size_t bytes_of_ranges(void) {
    size_t bytes = 0;
    for (size_t i = 0; i < ranges_count(); i++) bytes += ranges_at(i).bytes;
    return bytes;
}

bool sharing_end(const char *why) {
    bool none = false;
    if (inside || !is_owner() || atomic_load(&all_home)) return true;
    enter();
    size_t bytes = bytes_of_ranges();
    if (atomic_compare_exchange_strong(&over, &none, true)) say("lending ends for good", bytes, why), counts_file_note(why);
    leave();
    /* (without the lock: to unmap all frames takes long) */
    struct windows *set = atomic_load(&windows);
    step_in();
    if (set) windows_end(set);
    step_out();
    struct window_result result = do_all(cut);
    if (result.status == WINDOW_OK) atomic_store(&all_home, true);
    if (result.status == WINDOW_OK) return true;
    say("pages can't get memory of their own yet", bytes, window_status_words(result.status));
    errno = errno_of(result);
    return false;
}

static enum windows_pins pins_of(enum devices devices) {
    return devices < DEVICES_PIN_PAGES ? WINDOWS_PINS_NEVER : WINDOWS_PINS_POSSIBLE;
}

/* ---- a userfaultfd of the monitor's own ---- */

static atomic_bool has_stopped; /* lending, as was said, until no userfaultfd watches a window */

static struct window_result take_home(const struct piece *piece, size_t *kept) {
    (void)kept;
    const struct window_result none = {.status = WINDOW_OK};
    return piece->window ? window_home(piece->window, piece->first, piece->bytes / PAGE, false) : none;
}

static struct window_result copy_home(const struct piece *piece, size_t *kept) {
    (void)kept;
    const struct window_result none = {.status = WINDOW_OK};
    return piece->window ? window_home(piece->window, piece->first, piece->bytes / PAGE, true) : none;
}

/* Says once that lending stops or goes on. Takes the lock. */
static void say_stopped(bool has, const char *what, const char *why) {
    if (atomic_exchange(&has_stopped, has) == has) return;
    enter();
    size_t bytes = bytes_of_ranges();
    leave();
    say(what, bytes, why);
}

/* Whether pages came home for a watch that begins. `result` is what that came to. */
static bool are_home(struct window_result result) {
    say_stopped(true, "lending stops",
                "the process guards its memory by a userfaultfd of its own (postcopy migration, background snapshot)");
    if (result.status == WINDOW_OK) return true;
    errno = errno_of(result);
    return false;
}

/* No range that is just being read becomes a window for a while: then it is seen that it is watched. Takes the lock. */
static void wait_all(void) {
    enter();
    for (size_t i = 0; i < ranges_count(); i++) ranges_at(i).range->said = now_ns();
    leave();
}

bool sharing_watch(bool is_of_missing, bool *is_begun) {
    struct windows *set = atomic_load(&windows);
    *is_begun = false;
    if (inside || !is_owner()) return true;
    if (!set) return wait_all(), true;
    step_in();
    int cause = windows_watch(set);
    step_out();
    /* (where devices may pin pages, copies in place would stay private for good) */
    bool is_whole = is_of_missing || pins_of((enum devices)atomic_load(&worst)) == WINDOWS_PINS_POSSIBLE;
    *is_begun = cause == 0 && (!is_whole || are_home(do_all(take_home)));
    if (*is_begun) return true;
    cause = cause != 0 ? cause : errno;
    sharing_watch_made();
    errno = cause;
    return false;
}

void sharing_watch_made(void) {
    step_in();
    windows_watch_made(atomic_load(&windows));
    step_out();
}

bool sharing_protect(void *at, size_t bytes) {
    size_t kept;
    if (inside || !is_owner() || !is_aligned(at)) return true;
    return are_home(do_parts(at, end_of(at, bytes), copy_home, &kept));
}

/* By the library's own thread. */
bool ranges_are_watched(void) {
    struct windows *set = atomic_load(&windows);
    bool are = set && windows_are_watched(set);
    if (!are && !atomic_load(&over))
        say_stopped(false, "lending goes on", "no userfaultfd of its own guards the process's memory any more");
    return are;
}

/* ---- devices ---- */

bool sharing_devices(enum devices devices) {
    static atomic_bool is_said;
    int before = atomic_load(&worst);
    if (inside) return true;
    while (before < (int)devices && !atomic_compare_exchange_weak(&worst, &before, (int)devices)) {
    }
    struct windows *set = atomic_load(&windows);
    if (devices == DEVICES_WRITE_ALL) return sharing_end("a device is given to the guest, or may write to its memory unnoticed");
    if (pins_of(devices) != WINDOWS_PINS_POSSIBLE || !is_owner()) return true;
    step_in();
    if (set) windows_set_pins(set, WINDOWS_PINS_POSSIBLE);
    step_out();
    if (!atomic_exchange(&is_said, true))
        log_line("devices may have pinned pages (io_uring, io_submit or aio_read with O_DIRECT, or vmx): those that were lent "
                 "and written stay private from now on");
    return true;
}

/* Transfers under way that began before there were windows, in place of which they have this. Nothing is lent before they have ended. */
static atomic_size_t early;

bool ranges_have_early(void) { return atomic_load(&early) > 0; }

void sharing_transfers_begin(struct sharing_transfers *transfers, const struct iovec *buffers, int count) {
    struct windows *set = atomic_load(&windows);
    *transfers = (struct sharing_transfers){.is_early = false};
    if (inside || !is_owner()) return;
    if (!set) {
        atomic_fetch_add(&early, 1);
        set = atomic_load(&windows);
        transfers->is_early = !set;
        if (!set) return;
        atomic_fetch_sub(&early, 1);
    }
    step_in();
    transfers->are = windows_transfer_begin(set, buffers, (size_t)count);
    step_out();
}

void sharing_transfers_end(const struct sharing_transfers *transfers) {
    struct windows *set = atomic_load(&windows);
    if (!is_owner()) return; /* (a child after a fork, where the lock inside may be another thread's for ever) */
    step_in();
    if (transfers->is_early) atomic_fetch_sub(&early, 1);
    else if (set) windows_transfer_end(set, transfers->are);
    step_out();
}

/* ---- windows ---- */

static bool may_open(void) { return !atomic_load(&over) && atomic_load(&worst) < DEVICES_WRITE_ALL; }

/* Finds the last of the first `*left` ranges that isn't a window, and of which nothing was said for a while. Takes the lock. */
static bool find_settled(size_t *left, struct piece *settled, uint64_t *said) {
    bool is_found = false;
    enter();
    size_t count = ranges_count();
    *left = *left < count ? *left : count;
    while (may_open() && !is_found && *left > 0) {
        *settled = ranges_at(--*left);
        *said = settled->range->said;
        is_found = !settled->window && now_ns() >= *said + settled_ns;
    }
    leave();
    return is_found;
}

/* A userfaultfd watches a range still: it is read again after some time, of which that takes a hundredth. With the lock. */
static void put_off(const struct piece *now, uint64_t took_ns) {
    static bool is_said;
    now->range->said = now_ns() + WATCH_APART * took_ns;
    if (!is_said) say_none(now->bytes, window_status_words(WINDOW_WATCHED));
    is_said = true;
}

/*
 * Makes a window of a range, as it was read in so much time, unless something was said of it meanwhile: then a later look does it. Takes the
 * lock.
 */
static void open_range(const struct piece *settled, uint64_t said, struct window *read, struct window_result result,
                       unsigned flags, uint64_t took_ns) {
    enter();
    const struct piece now = ranges_next(settled->at, settled->at + settled->bytes);
    bool is_same = now.range && now.at == settled->at && now.bytes == settled->bytes && ranges_are_whole(&now);
    bool is_due = is_same && may_open() && !now.window && now.range->said == said;
    if (is_due && result.status == WINDOW_OK) {
        counts_file_forget(window_status_words(WINDOW_WATCHED));
        result = window_begin(read, flags);
        if (result.status == WINDOW_OK) ranges_become(now.range, read);
        read = NULL;
    }
    if (is_due && result.status == WINDOW_WATCHED) {
        put_off(&now, took_ns);
    } else if (is_due && result.status != WINDOW_OK) {
        if (now.bytes >= REPORT_BYTES) say_none(now.bytes, window_status_words(result.status));
        ranges_remove(&now);
    }
    leave();
    window_unread(read);
}

/* Makes windows of ranges. Their mappings are read without the lock: that takes long where there are many. */
void ranges_open(unsigned flags) {
    struct piece settled = {.range = NULL};
    uint64_t said = 0;
    if (ranges_are_watched()) return;
    for (size_t left = RANGES_MOST; find_settled(&left, &settled, &said);) {
        struct window *read = NULL;
        const uint64_t begun_ns = now_ns();
        struct window_result result = window_read(&read, atomic_load(&windows), settled.at, settled.bytes);
        open_range(&settled, said, read, result, flags, now_ns() - begun_ns);
    }
}

/* ---- an operator's pause ---- */

bool ranges_bring_home(uint8_t **at, struct window_result *result) {
    struct piece piece;
    enter();
    do {
        piece = ranges_next(*at, (uint8_t *)(UINTPTR_MAX / PAGE * PAGE));
        *at = piece.at + piece.bytes;
    } while (piece.range && !piece.window);
    if (piece.window) {
        size_t kept, most = PART_BYTES - (uintptr_t)piece.at % PART_BYTES;
        if (piece.bytes > most) piece.bytes = most;
        *at = piece.at + piece.bytes;
        *result = window_cut(piece.window, piece.first, piece.bytes / PAGE, &kept);
    }
    leave();
    return piece.window != NULL;
}

struct window_result ranges_end_windows(void) {
    struct window_result result = {.status = WINDOW_OK};
    enter();
    for (size_t i = 0; i < ranges_count(); i++) {
        struct window *window = ranges_at(i).window;
        if (!window) continue;
        const struct window_result ended = window_free(window, WINDOW_TAKE_HOME);
        if (ended.status == WINDOW_OK) ranges_end_being(window);
        else result = ended;
    }
    leave();
    return result;
}

/* ---- */

enum devices ranges_devices(void) { return (enum devices)atomic_load(&worst); }

void ranges_use(struct windows *set) {
    atomic_store(&windows, set);
    if (pins_of(ranges_devices()) == WINDOWS_PINS_POSSIBLE) windows_set_pins(set, WINDOWS_PINS_POSSIBLE);
}

void ranges_found(enum devices devices) {
    int before = inside;
    inside = 0; /* (as the monitor's own threads call it) */
    sharing_devices(devices);
    inside = before;
}

void ranges_refuse(const char *why) {
    int before = inside;
    inside = 0;
    sharing_end(why);
    inside = before;
}

bool sharing_offer(void *at, size_t bytes) {
    if (!connection_is_wanted() || atomic_load(&over) || !is_aligned(at)) return false;
    bytes -= bytes % PAGE;
    int none = 0;
    bool is_first = atomic_compare_exchange_strong(&owner, &none, getpid());
    if (!is_owner()) return false; /* a child after a fork, where the lock may be another thread's for ever */
    bool is_range = false, is_window = false, good = true;
    enter();
    const struct piece met = ranges_next(at, (uint8_t *)at + bytes);
    if (met.range) {
        is_range = true;
        is_window = met.window != NULL;
        met.range->said = now_ns();
    } else if (bytes >= LEAST_BYTES) {
        is_range = ranges_add(at, bytes, now_ns());
    }
    leave();
    if (is_first) {
        connection_prepare();
        filter_begin();
        good = signals_start(connection_thread);
        if (!good) ranges_refuse("there is no thread for it");
    }
    if (is_window) return true; /* the kernel's KSM must leave it alone */
    syscall(SYS_madvise, at, bytes, MADV_MERGEABLE);
    return is_range && good;
}
