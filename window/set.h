/* What the files of windows have in common; nobody else includes it. */
#ifndef PAGESHARE_WINDOW_SET_H
#define PAGESHARE_WINDOW_SET_H

#include "bytes.h"
#include "kernel.h"
#include "pageshare_process.h"
#include "trace.h"
#include "window.h"
#include <pthread.h>
#include <stdatomic.h>
#include <sys/types.h>

enum {
    PART = PAGEMAP_MOST, /* pages that a huge page has, and that one step of a look, or of a long call, handles under the lock */
    HOLD_MOST = 16,      /* pages that are held at once */
    SCRATCH = 512,       /* pages that were taken out are discarded together, since that interrupts all processors */
    HOME_MOST = 64,      /* pages that are guarded at once while they are copied home */
    FOUND_MOST = PART + WINDOW_BATCH, /* what a part has, beside less than a batch that was found before it */
    STILL = 3,                        /* looks with the same fingerprint that make a page idle */
    ASKS_APART_MOST = 3               /* questions about a page that were in vain are counted up to this number */
};

/* In place of a frame's number: the page is zeros, and goes back to the system. */
static const uint32_t ZEROS = WINDOW_NO_FRAME - 1;

/*
 * A page is struct pageshare_window_page: the proved library keeps it, writes it and decides by it; here is what is read of a copy.
 *
 * A page that has left its window is the caller's alone, unless a frame is mapped at its place still. Then its own copy, which a device
 * may have pinned, stays where it is. Nothing is lent of it any more, but a discard must not uncover the frame.
 */
typedef struct pageshare_window_page page_entry;
_Static_assert(sizeof(page_entry) == 12, "a page takes 12 bytes of tables");

static inline unsigned belief_of(const page_entry *page) { return page->belief & PAGESHARE_WINDOW_BELIEF; }
static inline bool is_over(const page_entry *page) { return (page->belief & PAGESHARE_WINDOW_OVER) != 0; }
static inline bool is_past(const page_entry *page) { return (page->belief & PAGESHARE_WINDOW_PAST) != 0; }
static inline bool is_out(const page_entry *page) { return (page->belief & PAGESHARE_WINDOW_OUT) != 0; }
static inline bool is_ordered(const page_entry *page) { return (page->looks & PAGESHARE_WINDOW_ORDERED) != 0; }
static inline bool is_same(const page_entry *page) { return (page->looks & PAGESHARE_WINDOW_SAME) != 0; }
static inline bool is_moved(const page_entry *page) { return (page->looks & PAGESHARE_WINDOW_MOVED) != 0; }
static inline bool is_seen(const page_entry *page) { return (page->clue & PAGESHARE_WINDOW_SEEN) != 0; }
static inline unsigned clue_in(const page_entry *page) { return page->clue & PAGESHARE_WINDOW_CLUE; }

static inline unsigned looks_of(const page_entry *page) { return page->looks >> 4 & 3u; }
static inline unsigned asks_of(const page_entry *page) { return page->looks >> 6; }
static inline uint64_t kept_of(const page_entry *page) { return (uint64_t)page->frame << 32 | page->slot; }
/* Whether a page is idle, and was asked about in vain so often that it is asked about again at some looks only. */
static inline bool is_asked_again(const page_entry *page) { return looks_of(page) == STILL && asks_of(page) == ASKS_APART_MOST; }

/* Whether a page shows its frame, as far as is known. */
static inline bool is_lent(const page_entry *page) {
    return belief_of(page) >= PAGESHARE_WINDOW_SHOWN && belief_of(page) <= PAGESHARE_WINDOW_HOMING;
}
/* Whether it shows a frame of a lender that is gone, as far as is known; or was given back as zeros, and has no memory since. */
static inline bool shows_past(const page_entry *page) { return is_over(page) && is_same(page); }
static inline bool is_given_back(const page_entry *page) { return !is_over(page) && is_same(page); }

/*
 * A part is struct pageshare_window_part: PART pages of a window that one huge page could hold, at a window's ends fewer. A whole one
 * is left to the system's huge pages: nothing of it is lent or given back, so no frame lies under its pages. It is split first.
 */
struct window {
    struct windows *windows;
    struct window *next;
    uint8_t *at;
    size_t count;        /* of pages */
    size_t lead;         /* pages of its first part that lie before it */
    uint32_t base;       /* the number of its first page among all windows' */
    size_t place;        /* in the process, which knows of its pages */
    uint8_t *cleared;    /* a bit of each page: it was given up over a frame, where it is zeros of its own */
    struct advice found; /* what was said of the range before it was a window */
    struct advice advice;
    size_t ready;    /* its pages before this one are left alone by KSM */
    size_t seams;    /* between mappings that it consisted of when it was made */
    bool keeps_huge; /* the system may back parts of it by huge pages */
    bool has_cuts;   /* pages were cut out, of which the caller may have said advice since */
    bool ends;       /* nothing is lent of it any more */
    bool ended;      /* the range is the caller's again; only slots are left to release */
};

/* A page that was held and could not be let go. `byte`: that of a row, which the library writes; `scratch`: where in the scratch area it is
 * aside. */
struct stuck {
    struct window *window;
    uint32_t page, scratch;
    uint8_t byte;
};

/* For how long the looking thread has had its processor. All is processor time of the thread. */
struct turn {
    uint64_t losses;     /* of the processor, as they were last counted */
    uint64_t counted_ns; /* when that was */
    uint64_t begun_ns;   /* it got the processor then, or later */
};

struct windows {
    pthread_mutex_t lock; /* round all below but what never changes, and what only the looking thread uses */
    atomic_uint waiting;  /* threads that wait for the lock: looks let them go first */
    struct window *first;
    struct pageshare_process process; /* what the library knows of the windows' pages */
    struct faults faults;
    struct pagemap pagemap;
    uint8_t *scratch;        /* place for SCRATCH pages that are held, or were */
    bool has_scratch;        /* pages can be moved there */
    uint8_t *zeros;          /* PART pages that nobody touches, and no child has; NULL if there are none */
    uint8_t *reserved_zeros; /* such for windows whose memory is reserved: with other zeros the system wouldn't join it */
    size_t scratch_used;
    struct stuck stuck[PART];
    size_t stuck_count;
    struct windows_config config; /* its `pins` and `tuning` change */
    /* Transfers by O_DIRECT that are under way, which may have pinned the pages of their memory. Each window counts them at its pages. */
    struct transfer_place *places;
    size_t places_count, places_free; /* how many there are; one more than the first free one, or 0 */
    uint64_t transfers_elsewhere;     /* those that have no place, or aren't counted at their pages */
    size_t mappings_most, locked_kib;
    bool follows_limit;      /* nobody said how many mappings there may be: the system's limit counts, also when it is raised */
    uint64_t locks_after_ns; /* smaps isn't read before this time */
    uint64_t crowded_until;  /* this look: a page wasn't lent lately since mappings are short */
    bool is_locked;
    bool is_watched;           /* by a userfaultfd of the caller's own, for all that is known */
    unsigned watches_open;     /* its requests that are being made */
    uint64_t watches_begun;    /* and those that were made or are */
    uint64_t watches_after_ns; /* smaps isn't read for them before this time */
    bool is_over;              /* nothing is lent any more, for good */
    int advice_cause;          /* what the system refused advice with, since the last look; or 0 */
    struct windows_counts counts;
    struct trace *trace;

    /* Of the looking thread. */
    struct window_lender lender;
    bool has_lender, lender_waits; /* waits: it didn't answer, and is left alone until the next look */
    bool awaits_loans; /* it isn't known whether copied pages were lent (window_lender), and so they stay as they are */
    struct turn turn;
    int frames_fd;
    uint8_t *frames_at;    /* the frames' file, for reading; NULL once nothing is lent any more. With the lock */
    bool frames_are_given; /* it is mapped as windows show frames, and no child has it: parts of it can be put in a window */
    uint64_t fingerprint_of_zeros;
    struct pageshare_window_tasks tasks;
    struct pageshare_window_budget budget;
    bool has_budget;             /* the thread has a share of a processor only */
    pid_t looker;                /* the thread that looked last; 0: none did */
    uint64_t unpaid_ns;          /* its processor time, but for that which the budget counts */
    struct window_result result; /* of the look under way: the first thing that went wrong */
};

static inline size_t least(size_t a, size_t b) { return a < b ? a : b; }

static inline uint8_t *address_of(const struct window *window, size_t page) { return window->at + bytes_of(page); }

static inline size_t parts_in(const struct window *window) { return (window->count + window->lead + PART - 1) / PART; }
/* How many pages there are from `first` on to the end of its part. */
static inline size_t rest_of_part(const struct window *window, size_t first) {
    size_t most = PART - (first + window->lead) % PART, left = window->count - first;
    return left < most ? left : most;
}

static inline struct window_result result_of(enum window_status status, int cause) {
    return (struct window_result){.status = status, .cause = cause};
}

/* The look under way, as the library takes it. */
static inline struct pageshare_window_look look_now(const struct windows *windows) {
    return (struct pageshare_window_look){.zeros = windows->fingerprint_of_zeros,
                                          .look = (uint32_t)windows->counts.looks,
                                          .turns = windows->config.tuning.turns,
                                          .rest_most = windows->config.tuning.rest_most};
}

/* Whether anything of a window may be lent. A child of a fork would go on showing frames that are released. With the lock. */
static inline bool can_lend(const struct window *window) {
    const struct windows *windows = window->windows;
    return window->advice.dont_fork && !window->ends && !windows->is_over && !windows->is_watched;
}

/* Counts those transfers that are under way at the pages of a new window. Returns false if that can't be. With the lock. */
bool count_transfers(struct window *window);
size_t bytes_of_places(const struct windows *windows);
void free_places(struct windows *windows);
/* Whether any page with a copy over a frame may be pinned, for all that is known. With the lock. */
static inline bool may_pin(const struct windows *windows) {
    return windows->config.pins != WINDOWS_PINS_NEVER || windows->transfers_elsewhere > 0;
}
/* Asks whether devices may pin pages by now. With the lock. */
void find_pins(struct windows *windows);

/* For all threads but the looking one. */
static inline void lock_set(struct windows *windows) {
    atomic_fetch_add(&windows->waiting, 1);
    pthread_mutex_lock(&windows->lock);
    atomic_fetch_sub(&windows->waiting, 1);
}
/* For the looking thread. */
void lock_for_look(struct windows *windows);
static inline void unlock_set(struct windows *windows) { pthread_mutex_unlock(&windows->lock); }

/* Notes something that went wrong in a look; the first is what the look returns. */
void note_failure(struct windows *windows, enum window_status status, int cause);

/* ---- what the library knows of pages, and decides. All with the lock ---- */

/* A window's process and its place there, as calls of pageshare_process.h take them. */
#define OF(WINDOW) &(WINDOW)->windows->process, (WINDOW)->place
/* Notes what has become of pages, or asks something of them: the members of struct pageshare_process_notice, or _question. */
#define NOTE(WINDOW, FIRST, COUNT, ...)                                                                                          \
    pageshare_process_note(OF(WINDOW), FIRST, COUNT, &(struct pageshare_process_notice){__VA_ARGS__})
#define MAY(WINDOW, FIRST, COUNT, ...)                                                                                           \
    pageshare_process_may(OF(WINDOW), FIRST, COUNT, &(struct pageshare_process_question){__VA_ARGS__})

/* The library hears what is so of the process from now on, or of a window that hasn't ended. */
void follow_facts(struct windows *windows);
void follow_state(struct window *window);
static inline struct pageshare_process_state state_of(const struct window *window) {
    return (struct pageshare_process_state){.inherited = !window->advice.dont_fork, .ends = window->ends};
}

/* Reads a page. Pages in a row are read at once (pageshare_process_read_pages). */
static inline page_entry page_of(const struct window *window, size_t number) {
    page_entry page = {.slot = 0};
    pageshare_process_read_pages(OF(window), number, &page, 1);
    return page;
}
/* Reads the part that a page belongs to. */
static inline struct pageshare_process_part part_of(const struct window *window, size_t page) {
    struct pageshare_process_part part = {.part = {.whole = false}};
    pageshare_process_read_part(OF(window), page, &part);
    return part;
}
/* Notes something of that part: the members of struct pageshare_process_part_notice. Returns what is to be done with it. */
#define NOTE_PART(WINDOW, PAGE, ...) note_part(WINDOW, PAGE, &(struct pageshare_process_part_notice){__VA_ARGS__})
static inline uint8_t note_part(const struct window *window, size_t page, const struct pageshare_process_part_notice *notice) {
    uint8_t order = PAGESHARE_WINDOW_STAY;
    pageshare_process_note_part(OF(window), page, notice, &order);
    return order;
}
/* Whether windows may take the mappings of so many pages. */
static inline bool has_mappings(struct windows *windows, size_t count) {
    return pageshare_window_has_mappings(windows->mappings_most, pageshare_process_mappings(&windows->process), count);
}
/* Does something with a list of so many pages, at most PART: the members of struct pageshare_process_list, but for the arrays' lengths. */
#define LIST(WINDOW, COUNT, ...) do_list(WINDOW, COUNT, &(struct pageshare_process_list){__VA_ARGS__})
void do_list(const struct window *window, size_t count, struct pageshare_process_list *list);

/* Pages by how they lie: sums of enum pageshare_window_kind. */
enum {
    IN_WINDOW = PAGESHARE_WINDOW_KIND_OWN | PAGESHARE_WINDOW_KIND_IN_FRAMES,
    OVER_FRAMES = PAGESHARE_WINDOW_KIND_IN_FRAMES | PAGESHARE_WINDOW_KIND_LEFT,
    ITS = IN_WINDOW | PAGESHARE_WINDOW_KIND_LEFT /* the window's: no other may be touched */
};
/*
 * Goes on to the next run of pages of these kinds, behind `run` and before page `end`. Returns false if there is none. To begin with a page, a run of
 * no pages is passed whose first one it is.
 */
bool go_to_run(const struct window *window, struct pageshare_window_run *run, size_t end, uint8_t kinds);
/* Whether there is a page of these kinds, from `first` on and before `end`. */
bool has_kind(const struct window *window, size_t first, size_t end, uint8_t kinds);
/* Whether there is one between two addresses, if the window hasn't ended. */
bool has_kind_between(const struct window *window, const uint8_t *begin, const uint8_t *end, uint8_t kinds);
/* How many pages from `first` on, of at most `most`, are all the window's or all not; and which. */
size_t run_of_its(const struct window *window, size_t first, size_t most, bool *is_its);

/* A slot's number of a lender, by the name in 32 bits that the library gave it. */
uint64_t slot_number(uint32_t name);

/* Makes the scratch area, or makes it anew. Returns 0 or an errno. */
int make_scratch(struct windows *windows);
/* Discards what is in the scratch area, unless something is stuck there. Returns 0 or an errno. With the lock. */
int clear_scratch(struct windows *windows);

/* Notes that pages in a row have memory of their own at their place, which was moved there. */
void note_moved(struct window *window, size_t first, size_t count);

/*
 * Zeros were mapped in the place of these pages, all has been said of them, and nobody waits for them. If one of them was
 * written before, the system may not have joined them with what is beside them: then they count as a mapping by themselves.
 * With the lock.
 */
void note_apart(struct window *window, size_t first, size_t count);

/*
 * Whether a page was given up while the system had no mapping for it, so that it was cleared. Once no frame lies under it any more it is
 * missing, if it is zeros still, as what is given up is otherwise. With the lock.
 */
bool is_cleared(const struct window *window, size_t page);
void note_cleared(struct window *window, size_t first, size_t count, bool are_cleared);

/*
 * Maps frames in a row in place of pages, or zeros, with this protection. Returns 0 or an errno, and then nothing has changed. What was said of
 * the window is said of them, but for copies of a frame's mapping, which no child has: say_again does that for many of them at once.
 */
int map_pages(struct window *window, size_t first, size_t count, uint32_t frame, int protection);

/*
 * Says of pages that were mapped anew what was said of the window, but for what they have of the windows' own frames or zeros if they are copies
 * of these; frames are among them, or only memory of their own. Returns false if the system refuses, which the next look reports. With the lock.
 */
bool say_again(struct window *window, size_t first, size_t count, bool is_file, bool are_copies);

/* Ends the watch over pages, and wakes threads that wait. Returns 0, or an errno: then the pages are among the stuck ones. With the lock. */
int let_waiters_go(struct window *window, size_t first, size_t count);

/* Keeps a page that could not be let go for a later look. With the lock. */
void add_stuck(struct window *window, size_t page, uint8_t byte, size_t scratch);

/* Puts pages back that a look could not. Returns 0, or an errno while some are left. With the lock. */
int free_stuck(struct windows *windows);

/* A step of a long call: with the lock, for at most PART pages. */
typedef struct window_result step(struct window *window, size_t first, size_t count);
/* Does a step after the other up to the first that fails, and takes the lock for each, so that nobody waits long. */
struct window_result for_parts(struct window *window, size_t first, size_t count, step *one);

/* Says that huge pages leave a new window alone, but for parts that can be huge pages, which are whole. Returns 0 or an errno. */
int begin_parts(struct window *window);
/* The library hears which parts of a new window are whole. With the lock. */
void note_whole_parts(struct window *window);
/* Counts a window's parts, or counts them no more. With the lock. */
void count_parts(struct window *window, bool is_more);
/* Notes whether a part is a huge page. Splits a whole one, or makes a split one whole, if that is worth it by what a look has found of it. With the
 * lock. */
void settle_part(struct window *window, size_t first, size_t own, bool is_huge);

/* Notes that so many pages weren't lent since mappings are short. With the lock. */
void note_crowded(struct windows *windows, size_t pages);
/* Notes how long pages were held that are held no longer. */
void note_hold(struct windows *windows, uint64_t begun_ns, size_t pages);

/* Reads the system's limit of mappings, if that counts. With the lock, or before there is a window. */
void follow_limit(struct windows *windows);

/* Frees what is kept of a window here. */
void free_window(struct window *window);

/*
 * Gives pages, at most PART, memory of their own in place of frames and of copies of frames. A copy that a device may have pinned stays
 * where it is, over its frame. `why`: what keeps them from being lent from now on, beside what does so already. With the lock.
 */
struct window_result take_home(struct window *window, size_t first, size_t count);
struct window_result take_home_for(struct window *window, size_t first, size_t count, struct pageshare_window_facts why);
/* Says of pages in the window, but for those over frames, what was said of them before. What the system refuses the next look reports. */
void end_advice(struct window *window, size_t first, size_t count);
/* Takes everything home, in parts, since the windows' memory is locked. Takes the lock. */
void take_all_home(struct windows *windows);

/* Notes that a lender's call failed. One that isn't there is asked nothing more in this look. Takes the lock. */
void lender_failed(struct windows *windows, int cause);

/* ---- a look's tasks ---- */

/* Pages of the window at which a look is, each once, in the order in which they were found. */
struct found {
    size_t count;
    uint32_t pages[FOUND_MOST];
    uint64_t fingerprints[FOUND_MOST];
};
/* The first of those that are idle, while they come to be shared. */
struct batch {
    size_t count;
    size_t done; /* of those that have a loan, how many were held, or stay as they are */
    uint32_t pages[WINDOW_BATCH];
    uint64_t fingerprints[WINDOW_BATCH];
};

/* A look under way. */
struct look {
    struct windows *windows;
    struct window *window, *next; /* the one at which it is, and the one to which it goes then */
    struct found zeros, idle;     /* what was found, and comes to be given back, or asked about */
    struct batch batch;
    size_t unready;                          /* parts of which it may still say that KSM leaves them alone */
    bool has_begun;                          /* it is known whether anything can be looked at */
    bool is_cut_short;                       /* it ends before it has been everywhere */
    uint64_t begun_ns, begun_spent;          /* the time, and the thread's processor time, when it began */
    uint64_t spent_ns;                       /* that when the task began */
    struct pageshare_window_task task;       /* which is carried out */
    struct pageshare_window_outcome outcome; /* what has come of it */
};

/* Lets others run if this thread has run for long since it got its processor, so that it doesn't lose it while it holds pages. Not with
 * the lock. */
void begin_turn(struct look *look);

/*
 * Carries out a task. Before it and after it nothing is held, and no lock is taken. Returns whether its kind goes on, as struct
 * pageshare_window_outcome says; other members of the outcome it writes itself, but for the counts of pages that were found.
 */
typedef bool task_do(struct look *look);
task_do look_at_part, look_again;                                                 /* in look.c */
task_do give_zeros_back, ask_lender, copy_for_lender, ask_for_loans, hold_loaned; /* in lend.c */

#endif
