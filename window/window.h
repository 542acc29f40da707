/*
 * Windows: ranges of a process's memory whose idle pages are lent, while its users go on reading and writing it.
 *
 * A page of a window is at each moment
 *   private: memory of its own;
 *   lent:    a frame of the lender's file is mapped in its place, privately, and nothing guards it;
 *   copied:  it was lent and somebody wrote to it, so the kernel made a private copy over the frame. A later look finds the copy, and
 *            only then is the page's slot released;
 *   out:     it has left the window. Nothing is lent of it again. Where a device may have pinned its copy, the copy stays over the frame:
 *            then the page is the window's for discards still.
 * So a write waits for nobody: to a lent page it costs the kernel's own copy. A page is held only for the moment in which it is
 * compared with its frame, byte by byte, and the frame is mapped. No lender is called meanwhile.
 *
 * windows_look, windows_attach, windows_detach, windows_taken_up and the calls for a budget are made by one thread at a time. All other
 * calls may come from any thread at any time, but windows_free. Nobody waits long: the lock inside is never held while a lender is called,
 * nor over a long run of pages, but by window_begin and window_free: the first writes the tables of all pages, some 7 ms for each GiB.
 *
 * Callers must:
 * - not discard (madvise), map, unmap, move or protect a part of a window, but by window_discard, window_cut and window_forget. A
 *   private page can be the copy of a frame, and a discard would uncover the frame;
 * - call window_cut or window_free before they lock a part of a window (mlock); and one of these or windows_watch before they register it
 *   with a userfaultfd of their own;
 * - say whether devices may write to pages by their physical addresses: see enum windows_pins.
 */
#ifndef PAGESHARE_WINDOW_H
#define PAGESHARE_WINDOW_H

#include "lender.h"
#include <sys/uio.h>

/* What a call came to. `cause` is an errno, or 0. */
enum window_status {
    WINDOW_OK,
    WINDOW_NO_MEMORY,  /* for tables */
    WINDOW_NO_FAULTS,  /* no userfaultfd that write-protects shared memory (docs/INSTALL.md, Which Linux), or no right to it */
    WINDOW_NO_PAGEMAP, /* the system doesn't show which pages were copied */
    WINDOW_LOCKED,     /* memory is locked (mlock, mlockall): the kernel would copy each frame that is mapped */
    WINDOW_BAD_RANGE,  /* not whole pages, out of the window, too many pages, or in another window already */
    WINDOW_BAD_MEMORY, /* not private anonymous memory that is readable and writable, or not of one kind throughout */
    WINDOW_BAD_LENDER, /* a lender's parts are missing or out of range, or its file isn't that large */
    WINDOW_HAS_LENDER, /* windows_attach without windows_detach */
    WINDOW_PINNED,     /* pages that a device may have pinned would have to leave their memory */
    WINDOW_NO_MAPPING, /* the system has no mapping, or no memory: the pages show what they showed */
    WINDOW_STUCK, /* the system refused to put pages back that were held: the next look tries again. Threads that use them wait */
    WINDOW_LENDER_FAILED, /* the lender returned `cause` */
    WINDOW_ADVICE,        /* the system refused to tell a range's memory policy, or to set its advice or policy again */
    WINDOW_WATCHED,       /* a userfaultfd of the caller's watches memory of the range */
};
struct window_result {
    enum window_status status;
    int cause;
};
/* A few words on a status. */
const char *window_status_words(enum window_status status);

/* All windows of a process that have one lender. */
struct windows;
/* One range. */
struct window;

/*
 * Whether a device, or the kernel for one, may write to pages by their physical addresses: by io_uring's buffers, io_submit on files
 * opened with O_DIRECT, VFIO, vhost with pinned pages. Where it may, only pages are lent that UFFDIO_MOVE takes (Linux 6.8), which
 * refuses pinned pages, and pages that show a frame. A page that was lent once and copied can't be moved, and so stays private from
 * then on; and it is never copied to other memory. Transfers of windows_transfer_begin aren't counted as such.
 */
enum windows_pins { WINDOWS_PINS_POSSIBLE, WINDOWS_PINS_NEVER };

enum {
    WINDOWS_HUGE_PAGES = 512 /* pages of a part, which is 2 MiB */
};

/* What may be changed between looks. */
struct windows_tuning {
    /*
     * A part of a window is 2 MiB, aligned to 2 MiB. It stays whole, as the system's huge pages have it, until so many of its pages could
     * be shared: they are zeros, or were seen elsewhere. Then it is split, and lent from. 0: no part stays whole, as if the range had no
     * huge pages. 1: a part is split as soon as any page could be shared. More than WINDOWS_HUGE_PAGES: no huge page is split.
     */
    uint16_t huge_from;
    /* Where next to nothing changes a look glances at one idle page, and leaves out at most this many: 1, 3, 7 and so on. 0: none. */
    uint8_t rest_most;
    /* A page that nobody else has is asked about again at each so many-th look (0: at each 8th), or where its part rests as often as a
     * look glances at it, if that is less often. */
    uint16_t turns;
};

/* Zeros are good defaults. */
struct windows_config {
    enum windows_pins pins;
    /*
     * Looks whether devices may pin pages by now; NULL: the set hears of them by windows_set_pins alone. It is called at the beginning
     * of a look, and when copies over frames are guarded, before these are held or copied. It calls nothing of windows. Once it has
     * returned WINDOWS_PINS_POSSIBLE it isn't called again.
     */
    enum windows_pins (*find_pins)(void *opaque);
    void *find_pins_opaque;
    int faults; /* an open descriptor of /dev/userfaultfd, or 0 to open it here. The caller keeps ownership */
    /* Mappings that windows may need in all; 0: the system's limit less a tenth of it, and less at least 4,000. */
    size_t mappings_most;
    struct windows_tuning tuning;
    /*
     * How much of one processor the thread that looks may use, in percent: `percent`, and up to `burst` while it has a credit. A look sleeps
     * until what the thread has used is paid for, also between looks. Nothing is held meanwhile. `percent` 0: as much as it likes.
     */
    unsigned percent, burst;
    /*
     * Called in a look, by the thread that looks: first of all, and each second while it lasts, with nothing held and no lock. It may call
     * anything of windows but windows_look, windows_attach and windows_detach. Returns false if the look is to end. NULL: none.
     */
    bool (*attend)(void *opaque);
    void *attend_opaque;
    bool never_move;   /* as on a kernel without UFFDIO_MOVE; for tests */
    bool never_scan;   /* as on a kernel without PAGEMAP_SCAN; for tests */
    bool never_wait;   /* parts are split and made whole at any look that finds a cause; for tests */
    const char *trace; /* a file for a record of events, if the library was built with WINDOW_TRACE; NULL: none */
};

/* Makes a set without windows or lender. Unless the status is WINDOW_OK *made is NULL. */
struct window_result windows_make(struct windows **made, const struct windows_config *config);
/* No other call runs or follows. Windows that are left are freed as by WINDOW_DROP; no slot is released. NULL is no set. */
void windows_free(struct windows *windows);

/* From the next look on pages are lent by this lender, whose struct is copied. */
struct window_result windows_attach(struct windows *windows, const struct window_lender *lender);
/*
 * The lender is gone for good, and no slot of its counts any more. What windows show stays: its file lives as long as it is mapped.
 * Pages that show its frames are lent anew when there is a lender again.
 */
void windows_detach(struct windows *windows);
/*
 * After calls to lend whose replies were lost: the lender is there again, and has none of their loans any more. Their pages may be asked
 * about again.
 */
void windows_taken_up(struct windows *windows);

/* From now on, also for windows that there are. A window that was made with huge_from 0 keeps no huge pages. */
void windows_tune(struct windows *windows, const struct windows_tuning *tuning);

/* What the thread that looks may use of a processor. */
struct windows_budget {
    unsigned percent;   /* its share of one processor */
    uint64_t credit_ns; /* processor time that it may use beyond the share */
};
/*
 * Changes the share and the burst; adds to the credit; and returns what they are. The thread that looks makes these calls. A set that was made
 * without a share (windows_config.percent) gets none: the first two do nothing, and the share is 100.
 */
void windows_pace(struct windows *windows, unsigned percent, unsigned burst);
void windows_give_credit(struct windows *windows, uint64_t ns);
struct windows_budget windows_budget_of(const struct windows *windows);

/* Devices may pin from now on, or no longer. */
void windows_set_pins(struct windows *windows, enum windows_pins pins);

/*
 * A transfer between a file and these buffers is about to begin that may pin pages (O_DIRECT) until it ends. Meanwhile pages there aren't
 * held, copies aren't copied to other memory, and slots aren't released. Returns what windows_transfer_end takes. The buffers may be a
 * window's, in part or not at all. Of zeros nothing is under way.
 */
struct windows_transfer {
    size_t first, elsewhere;
};
struct windows_transfer windows_transfer_begin(struct windows *windows, const struct iovec *buffers, size_t count);
void windows_transfer_end(struct windows *windows, struct windows_transfer transfer);

/*
 * A userfaultfd of the caller's own is about to watch memory of windows. From now on nothing is held, mapped or looked at, and pages show what they
 * show; a look goes on once no userfaultfd watches a window. Returns 0, or an errno where pages are stuck. Then, and when the request has been
 * made, windows_watch_made is called.
 */
int windows_watch(struct windows *windows);
void windows_watch_made(struct windows *windows);
bool windows_are_watched(struct windows *windows);

/* Nothing is lent any more, for good, and the lender's file isn't read any more. Pages that show frames go on showing them until they are
 * taken home. */
void windows_end(struct windows *windows);

/*
 * Between these two calls nothing is held, mapped or taken home. So the caller may unmap pages of windows, or map something else in
 * their place, by one call of the system and by the same thread. It calls window_forget for each part of a window. Returns 0, or an errno
 * where pages are stuck: then windows_resume isn't called.
 */
int windows_pause(struct windows *windows);
void windows_resume(struct windows *windows);

enum {
    WINDOW_NO_CHILD = 1 /* no child of a fork needs the range, so MADV_DONTFORK is said for it */
};
/*
 * Makes a range of private anonymous memory a window, of whole pages, with what it contains. Its advice is set again for frames
 * that are mapped: MADV_DONTDUMP, DONTFORK and NOHUGEPAGE. A memory policy (mbind) is set again for memory of the window's own alone.
 * MADV_NOHUGEPAGE is said for it, but for parts that stay whole (struct windows_tuning), and MADV_UNMERGEABLE, since the kernel's KSM
 * would merge pages that are held; window_free puts both back. Where the status isn't WINDOW_OK what was said of the range is put
 * back, but MADV_NOHUGEPAGE if nothing was said of huge pages there. Nothing is lent of a range that a child would have (no
 * MADV_DONTFORK): a child would go on showing frames that are released.
 */
struct window_result window_make(struct window **made, struct windows *windows, void *at, size_t bytes, unsigned flags);
/*
 * The same in two steps. The first reads what was said of the range, which takes long where the process has many mappings, and changes
 * nothing. The second makes the window; nothing may have been said of the range, mapped or unmapped there since. Where its status isn't
 * WINDOW_OK there is nothing left of what was read. window_unread gives up what was read instead; NULL is nothing.
 */
struct window_result window_read(struct window **read, struct windows *windows, void *at, size_t bytes);
struct window_result window_begin(struct window *read, unsigned flags);
void window_unread(struct window *read);

/* How a window ends. */
enum window_end {
    WINDOW_TAKE_HOME, /* each page gets memory of its own: the range's users go on */
    WINDOW_DROP,      /* nobody uses the range any more: it is zeros afterwards */
};
/*
 * Ends a window; the range is the caller's again, and window means nothing any more. Slots are released by later looks. Where the
 * status isn't WINDOW_OK the window is as it was, but that some pages may be private: WINDOW_PINNED if copies have to stay over
 * their frames. Pages that have left the window are left alone. NULL is no window.
 */
struct window_result window_free(struct window *window, enum window_end end);

/*
 * Says `advice` for all pages of the window, now and for frames that are mapped later: MADV_DONTFORK, MADV_DOFORK, MADV_DONTDUMP or
 * MADV_DODUMP; else WINDOW_ADVICE with EINVAL. MADV_DOFORK is refused with WINDOW_PINNED if copies have to stay over frames.
 */
struct window_result window_advise(struct window *window, int advice);

/* Says that pages may be huge pages (MADV_HUGEPAGE), as far as parts of the window are whole; or that none may be, and that no part becomes
 * whole any more. Returns 0 or an errno. */
int window_say_huge(struct window *window, size_t first, size_t count, bool may);

/*
 * The pages' content is given up: they are zeros and take no memory. Pages that aren't the window's any more are left alone. Where the
 * status isn't WINDOW_OK some pages may still have their content.
 */
struct window_result window_discard(struct window *window, size_t first, size_t count);

/*
 * Pages get memory of their own, and stay in the window. `in_place`: as copies over their frames, which needs no guard, so that it can be done
 * where the caller's own userfaultfd watches them.
 */
struct window_result window_home(struct window *window, size_t first, size_t count, bool in_place);

/* How many pages from `first` on, of at most `most` (at least 1), are all the window's or all not; and which: see window_cut. */
size_t window_run(struct window *window, size_t first, size_t most, bool *is_its);

/*
 * Pages get memory of their own and leave the window for good. `*kept` counts those of them whose copies have to stay over frames, since
 * a device may have pinned them. If it is 0 the range is the caller's. Otherwise the caller may protect and lock the range, but discards
 * pages by window_discard alone, unmaps them by windows_pause, and doesn't move them or let a child have them. `kept` may be NULL.
 */
struct window_result window_cut(struct window *window, size_t first, size_t count, size_t *kept);
/* The same, where the caller says no advice of the pages (madvise, mbind), unless it calls window_cut first. Then discards of those that stay
 * over frames take no longer where the process has many mappings (Linux 6.11). */
struct window_result window_leave(struct window *window, size_t first, size_t count, size_t *kept);

/* Pages were unmapped, or something else was mapped in their place. They have left the window. Between windows_pause and _resume. */
void window_forget(struct window *window, size_t first, size_t count);

/*
 * A look at all windows, to be called once a second or so:
 *   find     copies, whose slots are released; pages of zeros, which the system gets back;
 *   settle   which parts are whole, and which are split;
 *   idle     pages with the same fingerprint at three looks;
 *   ask      which of them the lender has seen elsewhere, too; the others stay where they are;
 *   lend     those, from copies of their bytes, with nothing guarded;
 *   hold     each, by UFFDIO_MOVE or by write protection; compare it with its frame; map the frame; and let threads that waited go on.
 * Returns the first thing that went wrong, having done what could be done all the same.
 */
struct window_result windows_look(struct windows *windows);

/* Why nothing is lent at the moment, of all windows. */
enum windows_pause {
    WINDOWS_LENDING,
    WINDOWS_NO_LENDER, /* none is attached, or it didn't answer at the last look */
    WINDOWS_LOCKED,    /* memory was locked: all pages got memory of their own */
    WINDOWS_HELD,      /* pages couldn't be put back (WINDOW_STUCK) */
    WINDOWS_CROWDED,   /* as many mappings as there may be */
    WINDOWS_WATCHED,   /* by a userfaultfd of the caller's */
};

enum { WINDOWS_TIMES = 24 };

/* Counts of a set, since it was made, but for the first nine. */
struct windows_counts {
    enum windows_pause pause;
    size_t windows, pages;
    size_t lent;      /* pages that show a frame, and weren't found copied */
    size_t zeros_now; /* pages that were given back as zeros, and weren't found written */
    size_t mappings;  /* of the system, that windows take */
    size_t mappings_most;
    size_t table_bytes; /* of tables */
    size_t left_mapped; /* memory of the library itself, without content, that the system refused to unmap: looks try again */
    uint64_t looks, lends, copied, zeros, discarded, taken_home;
    uint64_t asked, seen;          /* questions, and those of pages that were seen elsewhere */
    uint64_t changed;              /* pages written between their lend and the comparison, which stay private */
    uint64_t pinned;               /* pages that the system refused to move or guard */
    uint64_t no_frame, no_mapping; /* pages that weren't lent since the lender, or the system, had none */
    uint64_t lender_failures;
    size_t parts_whole, parts_split; /* parts as they are now; of those that can never be whole none is counted */
    size_t parts_huge; /* of the whole ones, those that were a huge page when they were looked at last, for all that is known */
    uint64_t splits, made_whole; /* parts that were split, or became whole again */
    uint64_t not_made_whole;     /* parts that stay split, since the system had no huge page or a device may have pinned pages */
    uint64_t again;              /* pages that were read or asked about again, since nobody else has them */
    uint64_t reads, fresh;       /* fingerprints that were taken; those of pages that weren't read before, and are no copies */
    uint64_t round_ns;           /* how long the last look took by the clock, with all pauses */
    uint64_t look_ns, ask_ns, lend_ns, map_ns; /* processor time of looks: all; of questions, of loans, of holds */
    uint64_t hold_most_ns;                     /* the longest time that a page was held, by the clock */
    uint64_t held[WINDOWS_TIMES]; /* pages that were held for less than 2^i microseconds, and not for less than half of it */
};
void windows_count(struct windows *windows, struct windows_counts *counts);

/* What a page is, as far as looks know. ZERO: it was given back as zeros. */
enum window_page { WINDOW_PAGE_PRIVATE, WINDOW_PAGE_LENT, WINDOW_PAGE_ZERO, WINDOW_PAGE_OUT };
enum window_page window_page_is(struct window *window, size_t page);

#endif
