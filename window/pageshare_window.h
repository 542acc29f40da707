/*
 * What the thread that lends a monitor's pages decides, in C11 or C++11: the functions of libpageshare_window.a. They decide what is done
 * next in a look; which pages a call of the monitor is about, and which numbers a new window's pages get; how many mappings may be made, and
 * how much processor time the thread may use; and what is said to the host. Those for windows' pages are in pageshare_process.h. They are proved, and
 * make no system call. Those that are here allocate nothing.
 *
 * A budget:
 *
 *     struct pageshare_window_budget budget;
 *     pageshare_window_begin(&budget, 2, 25, now, used);            2 percent of one processor, 25 while there is a credit
 *
 * A scan, of tasks that are carried out one after another:
 *
 *     static struct pageshare_window_tasks tasks;
 *     pageshare_window_begin_tasks(&tasks);
 *     while ((task = pageshare_window_next_task(&tasks, &budget, now, used)).kind != PAGESHARE_WINDOW_TASK_OVER)
 *         pageshare_window_task_done(&tasks, &task, &outcome, now);  once the task was carried out, and with what came of it
 *
 * Ranges, of which the table of zeros has none:
 *
 *     static struct pageshare_window_range ranges[256];
 *     size_t count = 0;
 *     pageshare_window_add_range(ranges, 256, &count, begin, end, now);
 *     while (pageshare_window_next_piece(ranges, count, at, end, &piece))
 *         at = piece.end;                                           the pieces between two pages, one after another
 *
 * Transfers that are under way, of which the table of zeros has none:
 *
 *     static struct pageshare_window_transfer transfers[128];
 *     uint64_t elsewhere = 0;
 *     size_t place = pageshare_window_begin_transfer(transfers, 128, &elsewhere, begin, end);
 *     pageshare_window_end_transfer(transfers, 128, &elsewhere, place);
 *
 * Over any stretch of calls the thread uses at most a sum of these: its share of the time that passed, what was saved before, the credit,
 * what it may owe, and the work of one task. That holds if it sleeps when pageshare_window_next_task says so.
 *
 * The caller ensures:
 * - Pointers are valid, not null, and point to a budget, a session or a table that no other thread uses during the call.
 * - Budgets, tasks, transfers, sessions and ranges are written by these calls alone, but for what is set to zeros at first, and for what the
 *   caller writes of a range: `window`, `base` and `said`.
 * - Of a task it carries out what that says and nothing else, and what it says came of it is true.
 */
#ifndef PAGESHARE_WINDOW_LIBRARY_H
#define PAGESHARE_WINDOW_LIBRARY_H

#include <stdbool.h>
#include <stddef.h>
#include <stdint.h>

#ifdef __cplusplus
extern "C" {
#endif

/* What a thread may use of one processor. Times are nanoseconds. The library alone writes the members. */
struct pageshare_window_budget {
    uint64_t time;   /* at the last count */
    uint64_t spent;  /* the processor time that the thread had used then */
    uint64_t saved;  /* what is saved up: 2 ms at most */
    uint64_t owed;   /* with more than 0.2 ms of it the thread has to sleep */
    uint64_t credit; /* what may be used beyond the share: 60 s at most */
    uint32_t percent;
    uint32_t burst;
};

/*
 * Begins a budget. `now` is the time and `spent` the processor time that the thread has used. `percent` is its share of one processor, and
 * `burst` its share while there is a credit: 1 to 100, and a burst is no less than the share. Numbers beyond that count as the nearest.
 */
void pageshare_window_begin(struct pageshare_window_budget *budget, uint32_t percent, uint32_t burst, uint64_t now,
                            uint64_t spent);
/* Changes the shares, and keeps the rest. */
void pageshare_window_pace(struct pageshare_window_budget *budget, uint32_t percent, uint32_t burst);
/* Adds to the credit: processor time that may be used beyond the share, up to the burst. */
void pageshare_window_give_credit(struct pageshare_window_budget *budget, uint64_t ns);
/*
 * Returns when something is done again that doesn't wait for the budget, began at `begun` and used `took` nanoseconds of processor time: after
 * `least` nanoseconds, or later, so that it uses at most a tenth of a share of `percent`.
 */
uint64_t pageshare_window_again(uint32_t percent, uint64_t begun, uint64_t took, uint64_t least);

/* How many mappings windows may take in all, of so many that the system lets the process have: a tenth, and at least 4,000, are left. */
uint64_t pageshare_window_mappings_most(uint64_t limit);
/* Whether they may take `count` mappings more, where they have taken `taken` of `most`. None more always may be taken. */
bool pageshare_window_has_mappings(uint64_t most, uint64_t taken, uint64_t count);

/*
 * A range that was offered, or a part of it that is left. A page has the number of its address: the address divided by the size of a page.
 * A table of ranges is an array, of which the first places are used. The caller writes `window`, `base` and `said` of a range itself.
 */
struct pageshare_window_range {
    uint64_t begin;  /* its first page */
    uint64_t end;    /* the page behind its last one */
    uint64_t window; /* the window that it is, or is a part of; 0: it isn't one yet */
    uint64_t base;   /* the first page of that window */
    uint64_t said;   /* when something was said of it last, in ns */
};

/* The pages of a range that lie between two pages. */
struct pageshare_window_piece {
    size_t place;    /* of the range in the table */
    uint64_t begin;  /* its first page */
    uint64_t end;    /* the page behind its last one */
    uint64_t window; /* that of the range */
    uint64_t first;  /* the number of its first page in that window */
};

/*
 * Finds the first piece of `count` ranges that lies between two pages: of `begin` and what comes after it, but of neither `end` nor what
 * comes after that. Returns false if there is none.
 */
bool pageshare_window_next_piece(const struct pageshare_window_range *ranges, size_t count, uint64_t begin, uint64_t end,
                                 struct pageshare_window_piece *piece);
/* Whether a range is left of a window. */
bool pageshare_window_is_part_left(const struct pageshare_window_range *ranges, size_t count, uint64_t window);
/*
 * Whether the pages from `begin` on and before `end` are all that is left of a window: they are the range at a place, and no other range is
 * left of that range's window.
 */
bool pageshare_window_is_all_left(const struct pageshare_window_range *ranges, size_t count, size_t place, uint64_t begin,
                                  uint64_t end);

/* Two pages between which all ranges of a table lie. Each is one of a range; where there is no range both are 0. */
struct pageshare_window_range_bounds {
    uint64_t begin; /* the first page of a range */
    uint64_t end;   /* the page behind the last one of a range */
};

/* Finds the bounds of `count` ranges. */
void pageshare_window_bounds(const struct pageshare_window_range *ranges, size_t count,
                             struct pageshare_window_range_bounds *found);
/*
 * Adds a range that isn't a window yet to a table of `most` places, of which `*count` are used. Returns false, and changes nothing, if the
 * range is empty, if one of its pages is in another range, or if no place is free.
 */
bool pageshare_window_add_range(struct pageshare_window_range *ranges, size_t most, size_t *count, uint64_t begin, uint64_t end,
                                uint64_t said);
/*
 * Takes pages out of the range at a place. What is left of it, one part or two, goes to the end of the table. Returns false, and changes
 * nothing, if these pages aren't a piece of that range, or if no place is free for a second part.
 */
bool pageshare_window_take_out(struct pageshare_window_range *ranges, size_t most, size_t *count, size_t place, uint64_t begin,
                               uint64_t end);

/* A place for a transfer between a file and memory, during which a device may hold that memory's pages. Zeros: no transfer is there. */
struct pageshare_window_transfer {
    uint64_t begin; /* the address of the first byte */
    uint64_t end;   /* the address behind the last one */
    bool is_there;
};

/*
 * Begins a transfer at the first free place of a table, and returns that place. Where none is free it adds one to `*elsewhere`, and
 * returns the number of places.
 */
size_t pageshare_window_begin_transfer(struct pageshare_window_transfer *table, size_t places, uint64_t *elsewhere,
                                       uint64_t begin, uint64_t end);
/* Ends a transfer, by what pageshare_window_begin_transfer returned. */
void pageshare_window_end_transfer(struct pageshare_window_transfer *table, size_t places, uint64_t *elsewhere, size_t place);
/* The numbers of a window's pages: so many in a row. */
struct pageshare_window_taken {
    uint32_t base;  /* that of its first page */
    uint32_t count; /* of its pages */
};

/*
 * Finds the least number from which `count` in a row are none of these `windows` windows'. All of them are below 2^32 - 1. Returns false,
 * and leaves `*base` as it is, if there is none.
 */
bool pageshare_window_find_numbers(const struct pageshare_window_taken *taken, size_t windows, uint32_t count, uint32_t *base);

/*
 * What is believed of a page. A slot is the host's name for a loan; a frame has a number in the host's file. From READY to LETTING_GO the page is
 * on its way to a target: the frame of its loan, or zeros.
 */
enum pageshare_window_belief {
    PAGESHARE_WINDOW_PRIVATE = 0,         /* nothing is lent of it, and nothing is asked */
    PAGESHARE_WINDOW_CHOSEN = 1,          /* it is to be lent */
    PAGESHARE_WINDOW_COPIED = 2,          /* its bytes are in the lender's buffer */
    PAGESHARE_WINDOW_READY = 3,           /* its target is known: the host gave a slot with a frame, or it may be zeros */
    PAGESHARE_WINDOW_HELD = 4,            /* the same, and writes wait */
    PAGESHARE_WINDOW_EQUAL = 5,           /* it was equal to its target, and writes wait */
    PAGESHARE_WINDOW_LETTING_GO = 6,      /* it isn't to show its target, and writes may wait; then a slot is to be released */
    PAGESHARE_WINDOW_SHOWN = 7,           /* the frame was mapped in its place */
    PAGESHARE_WINDOW_HOMING_IN_PLACE = 8, /* the same, and it is to get a copy of its own where it is */
    PAGESHARE_WINDOW_HOMING = 9,          /* the same, and it may get other memory */
    PAGESHARE_WINDOW_LEAVING = 10,        /* it shows no frame, and its slot is to be released */
    PAGESHARE_WINDOW_ZEROS = 16           /* besides, from READY to LETTING_GO: its target is zeros */
};

/*
 * A page, in 12 bytes. A struct of zeros is a page of which nothing is lent and nothing is known. The library alone writes the members; anybody
 * may read them.
 */
struct pageshare_window_page {
    uint32_t slot;  /* of its loan; without one the lower half of its fingerprint */
    uint32_t frame; /* of its loan; without a slot the upper half of its fingerprint */
    uint16_t clue;  /* PAGESHARE_WINDOW_CLUE: of the frame that lies under it, or of the last glance. And PAGESHARE_WINDOW_SEEN */
    uint8_t belief; /* PAGESHARE_WINDOW_BELIEF: enum pageshare_window_belief. And what lies at its place */
    uint8_t looks;  /* of its order and its place; and what looks have found */
};

/* The bits of `clue`, of `belief` and of `looks`. */
enum {
    PAGESHARE_WINDOW_CLUE = 0x7fff, /* a number below 32,768 */
    PAGESHARE_WINDOW_SEEN = 0x8000, /* it was seen elsewhere, or is zeros */

    PAGESHARE_WINDOW_BELIEF = 0x1f,
    PAGESHARE_WINDOW_OVER = 0x20, /* a frame is mapped at its place; the page is that frame or a private copy */
    PAGESHARE_WINDOW_PAST = 0x40, /* the frame is of a lender that is gone */
    PAGESHARE_WINDOW_OUT = 0x80,  /* it has left the window */

    PAGESHARE_WINDOW_ORDERED = 0x01, /* an order was given, and nothing is known of it yet */
    PAGESHARE_WINDOW_SAME = 0x02,  /* nobody has written to it since it was given back as zeros, or its frame's lender is gone */
    PAGESHARE_WINDOW_MOVED = 0x04, /* its memory was moved to its place, and so is in no mapping with what is beside it */
    PAGESHARE_WINDOW_BEGINS = 0x08 /* it is the first page of what was moved */
};

/* Counts of the pages of a part of a window, whose pages are at most 65,535. At first all are 0. The library alone writes them. */
struct pageshare_window_counts {
    uint16_t releases;  /* pages whose slot is to be released */
    uint16_t lent;      /* pages that show their frame */
    uint16_t zeros;     /* pages that were given back as zeros, and have no memory since */
    uint16_t past;      /* pages that show a frame of a lender that is gone */
    uint16_t shareable; /* pages that were seen elsewhere, or are zeros */
};

/* Reasons why a page may not be lent now. */
struct pageshare_window_facts {
    bool called;    /* a call of the monitor changes it just now */
    bool pinned;    /* a device may hold its memory */
    bool may_pin;   /* devices may hold memory of any page that is a copy over a frame, for all that is known */
    bool inherited; /* a child of a fork would have it */
    bool locked;    /* its memory is locked */
    bool leaves;    /* it is about to leave its window */
    bool ended;     /* lending has ended */
};

/* Kinds of pages. Each page is of one of the first four, by its place. */
enum pageshare_window_kind {
    PAGESHARE_WINDOW_KIND_OWN = 1,       /* it is in the window, and has memory of its own */
    PAGESHARE_WINDOW_KIND_IN_FRAMES = 2, /* it is in the window, and a frame lies under it */
    PAGESHARE_WINDOW_KIND_LEFT = 4, /* it has left the window, and a frame lies under it still, which a discard mustn't uncover */
    PAGESHARE_WINDOW_KIND_GONE = 8, /* it has left the window, and no frame lies under it: it is the caller's alone */
    PAGESHARE_WINDOW_KIND_COMING = 16,   /* a copy where it is brings it home: its frame is shown no more, or of the past */
    PAGESHARE_WINDOW_KIND_LEFT_OVER = 32 /* it has a copy of its own over a frame, and was asked about in vain most often */
};

/* Pages in a row, of one kind. */
struct pageshare_window_run {
    size_t first; /* the number of the first one */
    size_t count;
    uint8_t kind; /* enum pageshare_window_kind */
};

/* A part. The library alone writes the members. */
struct pageshare_window_part {
    bool whole;    /* it is left to the system's huge pages: nothing of it is lent */
    uint8_t pause; /* looks at it until it may change again */
    uint8_t alone; /* looks in a row that found next to nothing shared in it */
    uint8_t rest;  /* idle pages that a look leaves out for each one that it takes, since next to nothing changes there */
    uint8_t left;  /* looks until they may be more */
    bool is_still; /* nothing at all had changed there at the last look */
    bool is_huge;  /* it is whole, and was a huge page at the last look */
    uint32_t own;  /* pages that had memory of their own at the last look */
};

/* What came of an attempt to hold a page. */
enum pageshare_window_taking {
    PAGESHARE_WINDOW_NOT_TAKEN = 0,     /* nothing was done */
    PAGESHARE_WINDOW_TAKEN_WATCHED = 1, /* it isn't held, but writes to it may wait */
    PAGESHARE_WINDOW_TAKEN_GUARDED = 2, /* it is at its place, and writes to it wait */
    PAGESHARE_WINDOW_TAKEN_ASIDE = 3    /* its memory was moved aside; reads and writes at its place wait */
};

/* The byte of a page that is held: where its memory is, and whether the page is stuck. The library alone writes it. */
enum pageshare_window_held_place {
    PAGESHARE_WINDOW_PLACE_FREE = 0,     /* at its place, and nobody waits */
    PAGESHARE_WINDOW_PLACE_GUARDED = 1,  /* at its place, and writes to it may wait */
    PAGESHARE_WINDOW_PLACE_ASIDE = 2,    /* aside; nothing is at its place, and reads and writes there wait */
    PAGESHARE_WINDOW_PLACE_REPLACED = 3, /* what it equals took its place; threads that came before may wait */
    PAGESHARE_WINDOW_STUCK = 4 /* besides: the system refused to put it back or to end its watch, and it has no order any more */
};

/* What is done next with pages that are held. */
enum pageshare_window_hold_step {
    PAGESHARE_WINDOW_HOLD_OVER = 0,          /* nothing is left to do */
    PAGESHARE_WINDOW_HOLD_COMPARE = 1,       /* its memory is compared with its frame */
    PAGESHARE_WINDOW_HOLD_COMPARE_ZEROS = 2, /* with zeros */
    PAGESHARE_WINDOW_HOLD_MAP = 3,           /* its frame is mapped at its place */
    PAGESHARE_WINDOW_HOLD_GIVE_BACK = 4,     /* zeros are mapped there */
    PAGESHARE_WINDOW_HOLD_PUT_BACK = 5,      /* its memory is moved back to its place */
    PAGESHARE_WINDOW_HOLD_END_WATCH = 6      /* nobody waits for it any longer; where nothing is at its place, zeros are then */
};

/* What is done next with so many pages in a row: enum pageshare_window_hold_step. */
struct pageshare_window_row_order {
    size_t first; /* counted from the first page that is held */
    size_t count;
    uint8_t step;
};

/* Returns the byte of a page with which a row of its own begins: it isn't stuck any more. */
uint8_t pageshare_window_row_again(uint8_t byte);

/* What is to be done with a part of a window: the pages that one huge page could hold. */
enum pageshare_window_part_order {
    PAGESHARE_WINDOW_STAY = 0,      /* nothing */
    PAGESHARE_WINDOW_SPLIT = 1,     /* keep huge pages away from it, so that pages of it can be lent */
    PAGESHARE_WINDOW_MAKE_WHOLE = 2 /* copy it to a huge page, and put that in its place */
};

/* When parts are split, and when they are made whole. */
struct pageshare_window_part_config {
    uint32_t huge_from;  /* pages that could be shared for which a huge page is split */
    uint32_t alone_part; /* next to nothing is less than a so-many-th of that */
    uint8_t alone;       /* looks in a row that find next to nothing shared in a split part, until it is made whole */
    uint8_t pause;       /* looks at a part until it may change again */
};

/* What a look found of a part. */
struct pageshare_window_part_look {
    uint32_t own;       /* pages with memory of their own */
    uint32_t shareable; /* of a whole part: pages that are zeros or were seen elsewhere */
    bool is_huge;       /* it is a huge page */
    bool may_be_huge;   /* the system may back it by one */
    bool may_lend;      /* its pages may be lent */
    bool has_mappings;  /* the system has mappings for all of its pages */
    bool may_pin;       /* a device may have pinned a page of it, for all that is known */
    bool is_loose;      /* none of its pages is held */
    bool is_movable;    /* besides, nothing keeps one of them from being lent */
};

/*
 * Returns what is to be done with a part after a look: enum pageshare_window_part_order. It is split only if it is loose, and made whole
 * only if it is movable and no device may have pinned a page of it.
 */
uint8_t pageshare_window_next_of_part(struct pageshare_window_part *part, const struct pageshare_window_part_config *config,
                                      const struct pageshare_window_part_look *look);

/* ---- looks ---- */

/* A look, and how often it takes what. */
struct pageshare_window_look {
    uint64_t zeros;    /* the fingerprint of a page of zeros */
    size_t ready;      /* the system leaves the memory of the window's pages before this one alone */
    uint32_t look;     /* its number */
    uint16_t turns;    /* a page that nobody else has is asked about again at one look in so many; 0 counts as 8 */
    uint8_t rest_most; /* idle pages that it leaves out at most for each one that it takes, where a part rests */
    bool is_return;    /* it comes back to a part, for the pages that may be idle soon */
};

/* What is done next with a page at which a look has come. */
enum pageshare_window_find_step {
    PAGESHARE_WINDOW_FIND_OVER = 0,   /* nothing, and nothing was found */
    PAGESHARE_WINDOW_FIND_COPY = 1,   /* the system is asked once more whether it has memory of its own */
    PAGESHARE_WINDOW_FIND_GLANCE = 2, /* a glance is taken, where pageshare_window_glance_numbers says */
    PAGESHARE_WINDOW_FIND_READ = 3,   /* it is read: its fingerprint is taken, and a glance by that */
    PAGESHARE_WINDOW_FIND_COUNT = 4,  /* nothing: it is zeros in a whole part, and counts */
    PAGESHARE_WINDOW_FIND_IDLE = 5,   /* nothing: it is idle, and its fingerprint is kept */
    PAGESHARE_WINDOW_FIND_ZEROS = 6   /* nothing: it is idle, and zeros */
};

/* What a scan keeps of a page of its part, in a byte: enum pageshare_window_find_step, and these bits. The library alone writes it. */
enum pageshare_window_scan_bit {
    PAGESHARE_WINDOW_SCAN_STEP = 7,     /* bits of the step */
    PAGESHARE_WINDOW_SCAN_TAKEN = 8,    /* the scan takes it */
    PAGESHARE_WINDOW_SCAN_CHANGED = 16, /* it was idle, and has changed */
    PAGESHARE_WINDOW_SCAN_AGAIN = 32,   /* it was asked about in vain most often, and is read, or its last fingerprint counts */
    PAGESHARE_WINDOW_SCAN_MEMORY = 64,  /* it has memory of its own */
    PAGESHARE_WINDOW_SCAN_YOUNG = 128   /* and that may be idle soon */
};

/* What came of a step. */
struct pageshare_window_find_outcome {
    uint64_t fingerprint; /* of READ */
    uint16_t glance;      /* of GLANCE; of READ by the fingerprint */
    bool is_own;          /* of COPY: it has memory of its own */
};

/* A part that a look comes back to, and when. */
struct pageshare_window_return {
    uint32_t part;
    uint64_t due_ns;
};

/* Which part of a window a look comes to next. The library alone writes the members. */
struct pageshare_window_steps {
    uint32_t parts;     /* how many the window has */
    uint32_t next_part; /* that one comes next */
    uint32_t count;     /* of returns */
    struct pageshare_window_return returns[64];
};

/* What the thread that looks does next. */
enum pageshare_window_task_kind {
    PAGESHARE_WINDOW_TASK_OVER = 0,      /* nothing: no look stands */
    PAGESHARE_WINDOW_TASK_SLEEP = 1,     /* sleep for `ns` nanoseconds, which are 100 ms at most */
    PAGESHARE_WINDOW_TASK_BEGIN = 2,     /* find out whether anything can be looked at */
    PAGESHARE_WINDOW_TASK_ATTEND = 3,    /* do what may not wait for the look's end: first of all in a look, and each second */
    PAGESHARE_WINDOW_TASK_RELEASE = 4,   /* release slots, as many as one message names */
    PAGESHARE_WINDOW_TASK_WINDOW = 5,    /* go to the first window, or to the next one */
    PAGESHARE_WINDOW_TASK_LOOK = 6,      /* look at `part` for the first time in this look */
    PAGESHARE_WINDOW_TASK_RETURN = 7,    /* look at `part` again, for the pages that may be idle soon */
    PAGESHARE_WINDOW_TASK_GIVE_BACK = 8, /* give back the next pages in a row of those that are zeros */
    PAGESHARE_WINDOW_TASK_ASK = 9,       /* ask the lender about idle pages, as many as one message names */
    PAGESHARE_WINDOW_TASK_COPY = 10,     /* copy those of them that others have to the lender's buffer */
    PAGESHARE_WINDOW_TASK_LEND = 11,     /* ask for loans of what was copied */
    PAGESHARE_WINDOW_TASK_HOLD = 12,     /* hold the next pages in a row that have a loan, and show their frames */
    PAGESHARE_WINDOW_TASK_END = 13       /* do what follows the last window */
};

struct pageshare_window_task {
    uint64_t ns;   /* of SLEEP */
    uint32_t part; /* of LOOK and RETURN */
    uint8_t kind;  /* enum pageshare_window_task_kind */
};

/* What came of a task. */
struct pageshare_window_outcome {
    uint32_t parts; /* of WINDOW: the parts that the window has */
    uint32_t zeros; /* pages that were found to be zeros, and are to be given back still */
    uint32_t idle;  /* pages that were found idle, and are to be asked about still */
    uint32_t young; /* of LOOK and RETURN: pages of the part that may be idle soon */
    bool rests;     /* of LOOK and RETURN: the part rests, so that some of its pages were looked at */
    /*
     * BEGIN: a look can be made. ATTEND: the look goes on. RELEASE: there may be more slots to release. WINDOW: there is one.
     * LOOK, RETURN: the window hasn't ended. ASK, COPY, LEND: pages are left for COPY, LEND, HOLD. HOLD: pages are left to be held.
     */
    bool goes_on;
};

/* Where a look is. Zeros: no look stands. The library alone writes the members. */
struct pageshare_window_tasks {
    struct pageshare_window_steps steps;
    uint64_t attend_ns;
    uint32_t part;
    uint32_t zeros;
    uint32_t idle;
    uint8_t stage;
    uint8_t sharing;
    bool releases;
};

/* Begins a look. Returns false, and changes nothing, if one stands. */
bool pageshare_window_begin_tasks(struct pageshare_window_tasks *tasks);
/* Returns what is done next. `spent`: the processor time that the thread has used, for which `budget` pays. */
struct pageshare_window_task pageshare_window_next_task(struct pageshare_window_tasks *tasks,
                                                        struct pageshare_window_budget *budget, uint64_t now, uint64_t spent);
/* Takes what came of the task that pageshare_window_next_task returned last. */
void pageshare_window_task_done(struct pageshare_window_tasks *tasks, const struct pageshare_window_task *task,
                                const struct pageshare_window_outcome *outcome, uint64_t now);

/* What a look found, and what it took. */
struct pageshare_window_finds {
    uint64_t took_ms;  /* how long it lasted */
    uint64_t spent_ns; /* its processor time */
    uint64_t found;    /* pages that came to be shared */
    uint64_t asked;    /* questions, */
    uint64_t again;    /* and those of them that were asked before */
    uint64_t pages;    /* of all windows */
};

/* When looks begin. */
struct pageshare_window_times {
    uint32_t period_ms; /* between the beginnings of two looks, where nothing makes it shorter or longer */
    uint32_t calm;      /* looks in a row that found next to nothing */
    uint32_t eager;     /* looks that come sooner still */
    uint32_t turns;     /* a page that nobody else has is asked about again at one look in so many */
    uint64_t now_ms;    /* between the beginnings of the last look and the next one */
};

/* Begins the times of looks; makes the next ones come sooner, since there is a new window or lender; takes what a look found, and whether there
 * was a lender; and returns how many milliseconds pass until the next look, after one that lasted so long. */
void pageshare_window_begin_times(struct pageshare_window_times *times, uint32_t period_ms);
void pageshare_window_be_eager(struct pageshare_window_times *times);
void pageshare_window_look_ended(struct pageshare_window_times *times, const struct pageshare_window_finds *finds, bool may_lend);
uint64_t pageshare_window_pause_ms(const struct pageshare_window_times *times, uint64_t took_ms);

/* ---- lists of a window's pages ---- */

/* The answer to a page about which a host may be asked, or was: a sum of these. */
enum pageshare_window_ask {
    PAGESHARE_WINDOW_ASK = 1,            /* it may be asked about; or it may be lent, since somebody else has it */
    PAGESHARE_WINDOW_ASK_IN_PASSING = 2, /* and others mustn't find it by the question */
    PAGESHARE_WINDOW_ASK_CROWDED = 4     /* it can't, since mappings are short, and is asked about as seldom as any */
};

/* The answer to a page that is to be held from now on: its order is open. */
enum { PAGESHARE_WINDOW_TO_HOLD = 1 };

/* How it is seen that the copy of a page is of the page that a look found. */
enum pageshare_window_check {
    PAGESHARE_WINDOW_CHECK_NO_COPY = 0,     /* it isn't to be copied */
    PAGESHARE_WINDOW_CHECK_FINGERPRINT = 1, /* it has the fingerprint that was found */
    PAGESHARE_WINDOW_CHECK_GLANCE = 2,      /* a glance at it, by that fingerprint, finds the page's clue */
    PAGESHARE_WINDOW_CHECK_NEVER = 3        /* it isn't: something else was found of the page since */
};

/* What came of a copy. */
enum pageshare_window_copied {
    PAGESHARE_WINDOW_NOT_COPIED = 0,   /* it wasn't to be made */
    PAGESHARE_WINDOW_COPY_GOOD = 1,    /* it is of the page that was found */
    PAGESHARE_WINDOW_COPY_CHANGED = 2, /* it isn't */
    PAGESHARE_WINDOW_COPY_ZEROS = 3    /* it is zeros */
};

/* The answer to what a host said of a page: a sum of these. */
enum pageshare_window_loan {
    PAGESHARE_WINDOW_LOAN_GOT = 1,      /* the page has its loan: it is to be held */
    PAGESHARE_WINDOW_LOAN_NO_FRAME = 2, /* the host has no frame for it */
    PAGESHARE_WINDOW_LOAN_WRONG = 4,    /* the host owes a slot, or a frame of its file */
    PAGESHARE_WINDOW_LOAN_IN_FILE = 8   /* the frame is in the host's file */
};

/* ---- sessions ---- */

/* The client's half of a session with a host (pageshare_host.h), which outlives its connections. A struct of zeros is a client without one. */
struct pageshare_window_session {
    uint64_t loans;         /* replies to a lend that were counted */
    uint64_t unheard[1024]; /* slots that were given up, and that the host may not have heard of, */
    uint32_t count;         /* at so many places, */
    uint32_t said;          /* the first of which were said on this connection */
    uint32_t open;          /* questions that were asked, or pages that are to be lent */
    uint8_t name[16];       /* of the session */
    uint8_t link;           /* 0: none, 1: hello was said, 2: nothing is open, 3: questions are, 4: a lend is */
    bool has_name;
    bool unknown; /* what a lend has given, since its reply was lost, and no welcome has come */
};

/* What became of a page that was to be lent, as the host says it. */
struct pageshare_window_lent {
    uint64_t slot;
    uint32_t frame;
    uint32_t sharers;
};

/* What a welcome means. */
enum pageshare_window_welcomed {
    PAGESHARE_WINDOW_UNASKED = 0,  /* no hello is open: nothing changed */
    PAGESHARE_WINDOW_TAKEN_UP = 1, /* the session has its slots, and a lend whose reply was lost has given none */
    PAGESHARE_WINDOW_BEGUN = 2     /* another session: no slot of before is the client's */
};

/*
 * A connection begins. Returns whether its hello takes a session up, and writes this one's name and count. Then a welcome to a session with
 * this name was heard: enum pageshare_window_welcomed. And the connection has ended.
 */
bool pageshare_window_connect(struct pageshare_window_session *session, uint8_t *name, uint64_t *loans);
uint8_t pageshare_window_welcome(struct pageshare_window_session *session, const uint8_t *name);
void pageshare_window_disconnect(struct pageshare_window_session *session);
/* So many questions are to be asked, or pages to be lent. Returns whether they may be: else nothing is said. */
bool pageshare_window_ask(struct pageshare_window_session *session, uint32_t count);
bool pageshare_window_lend(struct pageshare_window_session *session, uint32_t count);
/* So many answers were heard, or these loans, of a host with so many frames. Returns whether they are the reply to what was said: else the
 * connection ends. */
bool pageshare_window_hear_answers(struct pageshare_window_session *session, uint32_t count);
bool pageshare_window_hear_loans(struct pageshare_window_session *session, uint32_t frames,
                                 const struct pageshare_window_lent *loans, size_t count);
/* Gives slots up whose frames no page shows. Returns whether they are: if not, there may be room after the next reply. */
bool pageshare_window_give_slots_up(struct pageshare_window_session *session, const uint64_t *slots, size_t count);
/* Writes which slots are to be released next, at most 128, and returns how many: the message is sent, or the connection ends. */
size_t pageshare_window_next_release(struct pageshare_window_session *session, uint64_t *slots);

#ifdef __cplusplus
}
#endif

#endif
