/*
 * All windows of one process, in C11 or C++11: more functions of libpageshare_window.a. A window is a range of a monitor's
 * memory whose pages may be lent, to a host or to others in the process. A process is its windows, and what is so of it. The
 * library keeps what is known of each page, decides what is done next, and counts mappings: VMAs of the system that windows
 * take. It makes no system call. All of it is proved.
 *
 *     static struct pageshare_process process;                              zeros: it holds nothing yet
 *     struct pageshare_process_facts facts = {.most = 40000};
 *     pageshare_process_make(&process, &facts);
 *
 *     struct pageshare_process_offer offer = {.number = address / 4096, .count = 1100};
 *     size_t window = pageshare_process_offer(&process, &offer);            a place, by which the window is named from now on
 *
 *     struct pageshare_process_notice covered = {.kind = PAGESHARE_PROCESS_COVERED, .frame = 7};
 *     pageshare_process_note(&process, window, 100, 10, &covered);          frames 7 to 16 were mapped at pages 100 to 109
 *     pageshare_process_mappings(&process);                                 3: before them, they, behind them
 *
 *     struct pageshare_process_question go_on = {.kind = PAGESHARE_PROCESS_GO_ON, .why = {.called = true}};
 *     if (pageshare_process_may(&process, window, 100, 10, &go_on))         a call of the monitor may change these pages
 *         ..
 *     pageshare_process_end(&process, window);                              then slots are released, and its place is freed:
 *     pageshare_process_take_out(&process, window);
 *     pageshare_process_free(&process);
 *
 * Every call has the handle first. A page is named by its window's place and its number in that window, from 0 on. Where the
 * handle holds no process, where no window has that place, or where pages aren't all there, a call returns false (or 0, or as it
 * says), writes nothing, and nothing changes. A call with a `kind` does the same where no kind has that number; 0 is none.
 *
 * The caller ensures:
 * - Pointers are valid and not null, also those of arrays of length 0. No other thread uses a handle, or what is passed, during
 *   a call.
 * - A handle is zeros at first, and is written by these calls alone.
 * - What it says is so: of the process, of windows, and of what was put at pages' places. An order is carried out, and nothing
 *   else is.
 * - Before a call of the monitor goes on that changes a page, it asks, with what is so of the page from then on.
 * Only pageshare_process_make and pageshare_process_offer allocate, and pageshare_process_pin at a window's first pin; if they
 * can't, nothing changes. They do it by rattle_alloc, which is the library's own (malloc) unless the program defines it.
 */
#ifndef PAGESHARE_PROCESS_H
#define PAGESHARE_PROCESS_H

#include "pageshare_window.h"

#ifdef __cplusplus
extern "C" {
#endif

/* A handle. It may go to another thread. */
struct pageshare_process {
    void *at; /* the library's alone */
    bool is_live;
};

/* ---- the process and its windows ---- */

/* What is so of the process, as far as it bears on what is lent. */
struct pageshare_process_facts {
    uint64_t most;      /* mappings that all windows together may take */
    uint64_t elsewhere; /* transfers that aren't counted at their pages, and may be of any page */
    bool may_pin;       /* devices may hold memory of any page that is a copy over a frame, for all that is known */
    bool locked;        /* memory of the process is locked */
    bool is_over;       /* nothing is lent of any window any more */
};

/* What is so of a window. */
struct pageshare_process_state {
    bool inherited; /* a child of a fork would have its pages */
    bool ends;      /* nothing is lent of it any more */
};

/* A window that is offered. */
struct pageshare_process_offer {
    uint64_t number; /* of its first page in memory: the address divided by the size of a page */
    size_t count;    /* of its pages */
    size_t seams;    /* places between mappings inside it, which count as mappings as long as it is a window */
    struct pageshare_process_state state;
};

/* Makes a process without windows. Returns false, and changes nothing, if the handle holds one, or without memory. */
bool pageshare_process_make(struct pageshare_process *process, const struct pageshare_process_facts *facts);
/* Frees a process with all that is known of its windows. Returns whether the handle held one; it holds none then. */
bool pageshare_process_free(struct pageshare_process *process);
/*
 * Takes in a window of whose pages nothing is known, and returns its place: the first that is free. Returns SIZE_MAX, and
 * changes nothing, without memory, or without a process. A page costs 14 bytes from then on, and 512 pages 22 more.
 */
size_t pageshare_process_offer(struct pageshare_process *process, const struct pageshare_process_offer *window);
/* Ends a window: nothing is lent of it any more, and its mappings don't count. False if it has ended. */
bool pageshare_process_end(struct pageshare_process *process, size_t window);
/* Takes a window out and frees its place. False if it hasn't ended, or if a slot of its pages is still to be released. */
bool pageshare_process_take_out(struct pageshare_process *process, size_t window);
/* What is so from now on: of the process, or of a window that hasn't ended. */
bool pageshare_process_set_facts(struct pageshare_process *process, const struct pageshare_process_facts *facts);
bool pageshare_process_set_state(struct pageshare_process *process, size_t window, const struct pageshare_process_state *state);
/* How many mappings windows have taken. */
size_t pageshare_process_mappings(struct pageshare_process *process);

/* ---- pages in a row: `count` from `first` on ---- */

/* What has become of pages. Those of the first group change the number of mappings. */
enum pageshare_process_notice_kind {
    PAGESHARE_PROCESS_COVERED = 1,      /* frames in a row were mapped at their places, the first one with the number `frame` */
    PAGESHARE_PROCESS_UNCOVERED = 2,    /* memory of their own was mapped there */
    PAGESHARE_PROCESS_MOVED_THERE = 3,  /* memory of their own was moved there, all at once */
    PAGESHARE_PROCESS_ZEROS_MAPPED = 4, /* zeros were; `flag`: the system let be said of them what is said of the window */
    PAGESHARE_PROCESS_UNMAPPED = 5,     /* they were unmapped, or something else was mapped there: they have left the window */
    PAGESHARE_PROCESS_DETACHED = 6,     /* their lender is gone, and no slot of theirs counts any more. What they show stays */
    PAGESHARE_PROCESS_ONE_MEMORY = 7,   /* memory with what they contained was moved there, all at once */

    PAGESHARE_PROCESS_GIVEN_UP = 8,      /* their content was given up */
    PAGESHARE_PROCESS_LEFT = 9,          /* they have left the window, with what they contain */
    PAGESHARE_PROCESS_MOVED_HOME = 10,   /* memory of their own was moved to their places, in place of frames */
    PAGESHARE_PROCESS_COPIED_HOME = 11,  /* they got a copy of their own where they are */
    PAGESHARE_PROCESS_REFUSED_HOME = 12, /* those that were to get memory of their own get none */
    PAGESHARE_PROCESS_CALLED_HOME = 13 /* those that show frames are to get memory of their own, by all that is so and by `why` */
};

struct pageshare_process_notice {
    uint8_t kind; /* enum pageshare_process_notice_kind */
    bool flag;
    uint32_t frame;
    struct pageshare_window_facts why;
};

/* Notes what has become of pages. */
bool pageshare_process_note(struct pageshare_process *process, size_t window, size_t first, size_t count,
                            const struct pageshare_process_notice *notice);

/* What is asked of pages. */
enum pageshare_process_question_kind {
    PAGESHARE_PROCESS_GO_ON = 1, /* may a call go on, of which `why` is so? No write waits, and none shows a frame that mustn't */
    PAGESHARE_PROCESS_GIVE_UP = 2,    /* may one that gives them up? No write waits */
    PAGESHARE_PROCESS_EXCHANGE = 3,   /* may their memory be exchanged for other memory? None is held, and nothing bars one */
    PAGESHARE_PROCESS_TAKE_ZEROS = 4, /* are there mappings for zeros in their place? */
    PAGESHARE_PROCESS_WANT_ZEROS = 5, /* alike and given up: are zeros to be mapped there? `flag`: others watch them */
    PAGESHARE_PROCESS_LIE_OVER = 6    /* does a frame lie under the first of them? The others needn't be there */
};

struct pageshare_process_question {
    uint8_t kind; /* enum pageshare_process_question_kind */
    bool flag;
    struct pageshare_window_facts why;
};

/* Returns the answer to a question about pages. */
bool pageshare_process_may(struct pageshare_process *process, size_t window, size_t first, size_t count,
                           const struct pageshare_process_question *question);
/*
 * Finds which pages stay where they are while writes to them wait: they are to get their copy there, or have one that a device
 * may hold. `copies` says of each whether it has memory of its own, and then whether it stays. `why` is so of them besides.
 */
bool pageshare_process_find_staying(struct pageshare_process *process, size_t window, const struct pageshare_window_facts *why,
                                    size_t first, bool *copies, size_t copies_count);
/* Finds the next run of pages of some kinds, a sum of enum pageshare_window_kind, from `first` on and before `end`, if any. */
bool pageshare_process_next_run(struct pageshare_process *process, size_t window, size_t first, size_t end, uint8_t kinds,
                                struct pageshare_window_run *run);
/* Pins pages once more, or once less. False if one was pinned 65,535 times, or isn't pinned, or if there is no memory. */
bool pageshare_process_pin(struct pageshare_process *process, size_t window, size_t first, size_t count, bool is_more);

/* ---- single pages ---- */

/* What is noted of a page. */
enum pageshare_process_page_kind {
    PAGESHARE_PROCESS_ASKED_AT_ONCE = 1, /* the host is to be asked about it at once, and it doesn't count as shareable */
    PAGESHARE_PROCESS_HELD = 2,          /* it was to be held, and was (`flag`), or wasn't */
    PAGESHARE_PROCESS_GIVEN_BACK = 3     /* it was given back as zeros and has no memory (`flag`), or it has memory */
};

bool pageshare_process_note_page(struct pageshare_process *process, size_t window, size_t page, uint8_t kind, bool flag);
/* Reads pages from `first` on, as many as `pages` has places for. */
bool pageshare_process_read_pages(struct pageshare_process *process, size_t window, size_t first,
                                  struct pageshare_window_page *pages, size_t pages_count);

/* ---- lists of pages, of which one is taken after another ---- */

/* What is done with a list, and which arrays beside `numbers` and `answers` it reads. Answers are enums of pageshare_window.h. */
enum pageshare_process_list_kind {
    PAGESHARE_PROCESS_TO_ASK = 1,      /* finds those about which the host may be asked (_ask). Reads `look` */
    PAGESHARE_PROCESS_ANSWERED = 2,    /* takes the host's: `given` is 1 if others have the page, by `fingerprints` (_ask) */
    PAGESHARE_PROCESS_TO_COPY = 3,     /* chooses what is copied: `given` is 1 if it is there; `fingerprints` as found (_check) */
    PAGESHARE_PROCESS_COPIED = 4,      /* takes what came of copies: `given` is enum pageshare_window_copied. 1: ask for a loan */
    PAGESHARE_PROCESS_LOANED = 5,      /* takes the `slots` and `frames` given, UINT32_MAX for no frame (_loan) */
    PAGESHARE_PROCESS_TO_HOLD = 6,     /* orders those to be held that have loans: 1 */
    PAGESHARE_PROCESS_TO_GIVE_BACK = 7 /* orders free ones to be held and given back as zeros: 1; 4: no room for zeros */
};

/* A list, with an entry of each page in every array that is read. An array that isn't read may have any length. */
struct pageshare_process_list {
    const uint32_t *numbers; /* the pages */
    size_t numbers_count;
    const uint64_t *fingerprints;
    size_t fingerprints_count;
    const uint8_t *given;
    size_t given_count;
    const uint64_t *slots;
    size_t slots_count;
    const uint32_t *frames;
    size_t frames_count;
    uint8_t *answers; /* written; 0 of a page that isn't there */
    size_t answers_count;
    struct pageshare_window_look look;
    uint32_t file_frames; /* of LOANED: frames of the host's file */
    bool is_heard;        /* of LOANED: the host was heard; else it has lent none of them */
    uint8_t kind;         /* enum pageshare_process_list_kind */
};

/* Does that with a list, of which it writes the answers alone. False also if arrays that it reads have different lengths. */
bool pageshare_process_list(struct pageshare_process *process, size_t window, struct pageshare_process_list *pages);
/*
 * Finds which of `count` pages from `first` on are to be released, and orders that. Writes the numbers of as many as `places`
 * has places for, and returns how many. Then released takes whether the host heard of these pages' slots.
 */
size_t pageshare_process_to_release(struct pageshare_process *process, size_t window, size_t first, size_t count, size_t *places,
                                    size_t places_count);
bool pageshare_process_released(struct pageshare_process *process, size_t window, const size_t *numbers, size_t numbers_count,
                                bool is_heard);

/* ---- pages that are held in a row, from `first` on. `row` has a byte of each, enum pageshare_window_held_place ---- */

/* Takes what came of the attempt to hold each: enum pageshare_window_taking. False also if `takings` has another length. */
bool pageshare_process_begin_row(struct pageshare_process *process, size_t window, size_t first, uint8_t *row, size_t row_count,
                                 const uint8_t *takings, size_t takings_count);
/* Writes what is done next: enum pageshare_window_hold_step. It is OVER where nothing is left to do, or nothing is there. */
void pageshare_process_next_of_row(struct pageshare_process *process, size_t window, size_t first, const uint8_t *row,
                                   size_t row_count, struct pageshare_window_row_order *order);
/* Takes that an order was carried out with its first `done` pages, and refused with so many behind. The rest comes again. */
bool pageshare_process_row_done(struct pageshare_process *process, size_t window, size_t first, uint8_t *row, size_t row_count,
                                const struct pageshare_window_row_order *order, size_t done, size_t refused);

/* ---- parts: the pages that one huge page could hold, 512. A part is named by one of its pages, `first` ---- */

/* What is done in a scan of a part. A scan is over once no page has a step left. */
enum pageshare_process_scan_kind {
    PAGESHARE_PROCESS_SCAN_BEGIN = 1, /* `memory` of each page: 0 none of its own, 1 some, 2 some that is swapped out */
    PAGESHARE_PROCESS_SCAN_DONE = 2,  /* `outcomes`: what came of each page's step */
    PAGESHARE_PROCESS_SCAN_FOLLOW = 3 /* `memory`: takes pages beside those that have changed, too, where the part rests */
};

/* A scan of pages from `first` on. An array that isn't read may have any length. */
struct pageshare_process_scan {
    const uint8_t *memory;
    size_t memory_count;
    const struct pageshare_window_find_outcome *outcomes;
    size_t outcomes_count;
    uint8_t *row; /* written: what is done next with each page, enum pageshare_window_find_step and _scan_bit */
    size_t row_count;
    size_t first;
    struct pageshare_window_look look;
    uint8_t kind; /* enum pageshare_process_scan_kind */
};

/* Does that in a scan. False also if what it reads isn't as long as `row`. Nothing of the struct changes but the row. */
bool pageshare_process_scan(struct pageshare_process *process, size_t window, struct pageshare_process_scan *pages);
/* Writes the numbers that say where glances look at the pages at these places, counted from `first` on. What it writes of a page that isn't there says nothing. */
void pageshare_process_glance_numbers(struct pageshare_process *process, size_t window, size_t first, const uint16_t *places,
                                      size_t places_count, uint64_t *numbers, size_t numbers_count);

/* A part, and counts of its pages. */
struct pageshare_process_part {
    struct pageshare_window_part part;
    struct pageshare_window_counts counts;
};

/* Reads the part of a page; of the last part also by the number of a page behind the window's end, as far as the part reaches. */
bool pageshare_process_read_part(struct pageshare_process *process, size_t window, size_t first,
                                 struct pageshare_process_part *part);

/* What is noted of a part. */
enum pageshare_process_part_kind {
    PAGESHARE_PROCESS_SETTLED = 1,   /* a look found this (`found`), by which it is decided what is done with it (`config`) */
    PAGESHARE_PROCESS_RESTS = 2,     /* a look (`look`) found `changes` idle pages that changed, `own` with memory of their own */
    PAGESHARE_PROCESS_WOKEN = 3,     /* its rest ends */
    PAGESHARE_PROCESS_HUGE = 4,      /* the system backs it by a huge page, or it doesn't (`flag`) */
    PAGESHARE_PROCESS_FORGOTTEN = 5, /* what looks have found of it counts no more */
    PAGESHARE_PROCESS_WHOLE = 6      /* it is whole from now on, or split (`flag`). This changes the number of mappings */
};

struct pageshare_process_part_notice {
    uint8_t kind; /* enum pageshare_process_part_kind */
    bool flag;
    uint32_t changes;
    uint32_t own;
    struct pageshare_window_part_config config;
    struct pageshare_window_part_look found;
    struct pageshare_window_look look;
};

/*
 * Notes something of a part. At SETTLED it writes what is to be done with the part, enum pageshare_window_part_order. False also
 * at WHOLE if `first` isn't the first page of a part whose pages are all there.
 */
bool pageshare_process_note_part(struct pageshare_process *process, size_t window, size_t first,
                                 const struct pageshare_process_part_notice *notice, uint8_t *order);

#ifdef __cplusplus
}
#endif

#endif
