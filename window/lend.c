/* Pages that are idle: zeros go back to the system, and others are asked about, lent, held, compared and mapped. */
#define _GNU_SOURCE
#include "set.h"
#include <errno.h>
#include <sched.h>
#include <string.h>
#include <sys/mman.h>

/* A thread that has run for so long lets others run before it holds pages: after some milliseconds the system makes it stop. */
static const uint64_t turn_ns = 1000000;

enum {
    ROWS_MOST = 8,   /* rows of pages that are held one after another with the lock, */
    SETTLE_MOST = 32 /* as long as they are fewer pages */
};

/* Pages in a row that are to be shown as frames or zeros. All of them lie over frames, or none. */
struct hold {
    struct window *window;
    size_t first, count;
    uint64_t begun_ns; /* since then somebody may have to wait for them */
    size_t left;       /* how many of them are held still */
    bool moves;        /* they are taken out of their place; otherwise writes are guarded */
    size_t scratch;    /* where they are then, in the scratch area */
    bool any_copies;   /* a copy of a frame's mapping was put in a page's place */
    bool any_remapped; /* other memory than the scratch area's is at a place since */
    int stuck_cause;   /* what the system refused to let pages go with, or 0 */
    bool held[HOLD_MOST];
    uint8_t row[HOLD_MOST];   /* of each page, where its memory is, and whether it is stuck: the library writes it */
    bool zeros[HOLD_MOST];    /* zeros were mapped */
    bool given_up[HOLD_MOST]; /* in place of a page that was cleared since it was given up */
    bool missing[HOLD_MOST];  /* nobody waits for the page any more, and what was mapped there has no page yet */
};

static uint8_t *place_of(const struct hold *hold, size_t i) { return address_of(hold->window, hold->first + i); }

static uint8_t *aside_of(const struct hold *hold, size_t i) {
    return hold->window->windows->scratch + bytes_of(hold->scratch + i);
}

/* The memory of a page that is held. */
static const uint8_t *memory_of(const struct hold *hold, size_t i) {
    return hold->row[i] == PAGESHARE_WINDOW_PLACE_ASIDE ? aside_of(hold, i) : place_of(hold, i);
}

static uint32_t number_of(const struct hold *hold, size_t i) { return hold->window->base + (uint32_t)(hold->first + i); }

/*
 * Guards pages against writes. What a device may have pinned isn't held by that. So if pages may be pinned, only those are held that
 * show a frame still, now that nobody can make a copy any more. Devices are looked for only now, since one that pins a page from now
 * on waits.
 */
static void guard(struct hold *hold) {
    static const struct pageshare_window_facts nothing_more;
    struct windows *windows = hold->window->windows;
    void *at = address_of(hold->window, hold->first);
    bool stay[HOLD_MOST] = {false}; /* (at first, whether each has memory of its own) */
    int cause = faults_protect(&windows->faults, at, hold->count);
    find_pins(windows);
    if (cause == 0 && may_pin(windows)) cause = pagemap_find_copies(&windows->pagemap, at, hold->count, stay);
    if (cause != 0) note_failure(windows, WINDOW_NO_MAPPING, cause);
    pageshare_process_find_staying(OF(hold->window), &nothing_more, hold->first, stay, hold->count);
    for (size_t i = 0; i < hold->count; i++) hold->held[i] = cause == 0 && !stay[i];
}

/* Takes out or guards what can be; nothing if the system refuses. Returns whether writes to any of the pages may wait since. */
static bool begin_hold(struct hold *hold) {
    struct windows *windows = hold->window->windows;
    void *at = address_of(hold->window, hold->first);
    bool is_over_frame = MAY(hold->window, hold->first, 1, .kind = PAGESHARE_PROCESS_LIE_OVER);
    hold->moves = windows->faults.moves && !is_over_frame;
    if (!hold->moves && !is_over_frame && may_pin(windows)) return false;
    int cause = 0;
    if (!hold->moves) {
        cause = advice_say(at, hold->count, MADV_UNMERGEABLE); /* (the kernel's KSM lifts a guard) */
        /* (and what is left of a huge page takes all its memory until it is split) */
        if (!is_over_frame) madvise(at, bytes_of(hold->count), MADV_COLD);
    }
    if (hold->moves && windows->scratch_used + hold->count > SCRATCH) cause = clear_scratch(windows);
    bool is_asked = cause == 0;
    if (is_asked) cause = faults_watch(&windows->faults, at, hold->count, hold->moves ? FAULTS_OF_MISSING : FAULTS_OF_WRITES);
    if (cause != 0) {
        note_failure(windows, WINDOW_NO_MAPPING, cause);
        /* (of some pages the watch may have begun; not where another userfaultfd has one of them) */
        return is_asked && cause != EBUSY;
    }
    hold->begun_ns = clock_now_ns();
    if (hold->moves) {
        hold->scratch = windows->scratch_used;
        windows->scratch_used += hold->count;
        faults_move(&windows->faults, aside_of(hold, 0), at, hold->count, hold->held);
    } else {
        guard(hold);
    }
    return true;
}

/* Holds as many of the pages as the kernel allows. Writes to the others may still block until the watch ends. */
static void take(struct hold *hold) {
    struct window *window = hold->window;
    struct trace *trace = window->windows->trace;
    uint8_t takings[HOLD_MOST];
    bool is_begun = begin_hold(hold);
    for (size_t i = 0; i < hold->count; i++) {
        unsigned held = hold->moves ? PAGESHARE_WINDOW_TAKEN_ASIDE : PAGESHARE_WINDOW_TAKEN_GUARDED;
        unsigned taking = hold->held[i] ? held : is_begun ? PAGESHARE_WINDOW_TAKEN_WATCHED : PAGESHARE_WINDOW_NOT_TAKEN;
        takings[i] = (uint8_t)taking;
        hold->left += hold->held[i] ? 1 : 0;
        window->windows->counts.pinned += hold->held[i] ? 0 : 1;
    }
    pageshare_process_begin_row(OF(window), hold->first, hold->row, hold->count, takings, hold->count);
    for (size_t i = 0; i < hold->count; i++) {
        if (!hold->held[i]) continue;
        trace_content(trace, number_of(hold, i), memory_of(hold, i));
        trace_guard(trace, number_of(hold, i));
    }
}

/* What came of an order: with so many of its pages it was carried out, and with so many behind them it was refused. */
struct came {
    size_t done, refused;
};
typedef struct came hold_do(struct hold *hold, const struct pageshare_window_row_order *todo);

/* Compares pages that nobody can write, up to the first one that differs. */
static struct came compare(struct hold *hold, const struct pageshare_window_row_order *todo) {
    struct windows *windows = hold->window->windows;
    bool is_frame = todo->step == PAGESHARE_WINDOW_HOLD_COMPARE;
    page_entry pages[HOLD_MOST];
    pageshare_process_read_pages(OF(hold->window), hold->first + todo->first, pages, todo->count);
    for (size_t done = 0; done < todo->count; done++) {
        size_t i = todo->first + done;
        const uint8_t *page = memory_of(hold, i);
        uint32_t frame = pages[done].frame;
        const uint8_t *frames = windows->frames_at; /* (NULL if lending has ended since: then they aren't equal) */
        bool is_equal = is_frame ? frames != NULL && are_equal(page, frames + bytes_of(frame)) : is_zero(page);
        windows->counts.changed += is_equal ? 0 : 1;
        if (!is_equal) return (struct came){.done = done, .refused = 1};
        if (is_frame) trace_lend(windows->trace, number_of(hold, i), frame);
    }
    return (struct came){.done = todo->count};
}

/* (each of these pages is asked about again at one of so many looks) */
void note_crowded(struct windows *windows, size_t pages) {
    windows->counts.no_mapping += pages;
    windows->counts.pause = WINDOWS_CROWDED;
    windows->crowded_until = windows->counts.looks + (1u << ASKS_APART_MOST);
}

void note_hold(struct windows *windows, uint64_t begun_ns, size_t pages) {
    struct windows_counts *counts = &windows->counts;
    uint64_t took = clock_now_ns() - begun_ns;
    size_t class = 0;
    if (pages == 0) return;
    while (class + 1 < WINDOWS_TIMES && took / 1000 >= (uint64_t)1 << class) class ++;
    counts->held[class] += pages;
    if (took > counts->hold_most_ns) counts->hold_most_ns = took;
}

/* Counts how long pages were held that are held no longer. */
static void note_held(struct hold *hold, size_t count) {
    hold->left -= count;
    note_hold(hold->window->windows, hold->begun_ns, count);
}

/* Maps frames in a row, or zeros, and lets the threads go on that wait for them. */
static struct came map(struct hold *hold, const struct pageshare_window_row_order *todo) {
    struct windows *windows = hold->window->windows;
    const size_t first = hold->first + todo->first;
    bool is_frame = todo->step == PAGESHARE_WINDOW_HOLD_MAP;
    uint32_t target = is_frame ? page_of(hold->window, first).frame : ZEROS;
    bool has_room = is_frame || MAY(hold->window, first, todo->count, .kind = PAGESHARE_PROCESS_TAKE_ZEROS);
    trace_dawdle();
    for (size_t i = todo->first; i < todo->first + todo->count; i++)
        hold->given_up[i] = is_cleared(hold->window, hold->first + i);
    int cause = has_room ? map_pages(hold->window, first, todo->count, target, PROT_READ | PROT_WRITE) : ENOMEM;
    if (cause != 0) {
        note_crowded(windows, todo->count);
        if (has_room) note_failure(windows, WINDOW_NO_MAPPING, cause);
        return (struct came){.refused = todo->count};
    }
    for (size_t i = todo->first; i < todo->first + todo->count && is_frame; i++) trace_map(windows->trace, number_of(hold, i));
    hold->any_copies = hold->any_copies || is_frame;
    memset(hold->zeros + todo->first, !is_frame, todo->count);
    windows->counts.lends += is_frame ? todo->count : 0;
    /* (if nobody is woken here the end of the watch does it; a page that was taken out is given back only then) */
    if (faults_wake(&windows->faults, place_of(hold, todo->first), todo->count) == 0) note_held(hold, todo->count);
    return (struct came){.done = todo->count};
}

/* Puts back what was taken out, up to the first page that the system refuses to put back. */
static struct came put_back(struct hold *hold, const struct pageshare_window_row_order *todo) {
    struct faults *faults = &hold->window->windows->faults;
    for (size_t done = 0; done < todo->count; done++) {
        size_t i = todo->first + done;
        bool remapped = false;
        int cause = faults_put(faults, place_of(hold, i), aside_of(hold, i), &remapped);
        if (cause != 0) {
            hold->stuck_cause = cause;
            return (struct came){.done = done, .refused = 1};
        }
        if (remapped) note_moved(hold->window, hold->first + i, 1);
        hold->any_remapped = hold->any_remapped || remapped;
    }
    return (struct came){.done = todo->count};
}

/* Notes that nobody waits for a page any longer, unless the system refused that. */
static void note_end(struct hold *hold, size_t i, const page_entry *page, bool is_done) {
    struct windows *windows = hold->window->windows;
    bool is_zeros = belief_of(page) == (PAGESHARE_WINDOW_EQUAL | PAGESHARE_WINDOW_ZEROS);
    bool is_given = is_zeros || is_lent(page);
    if (is_zeros) {
        pageshare_process_note_page(OF(hold->window), hold->first + i, PAGESHARE_PROCESS_GIVEN_BACK, true);
        windows->counts.zeros++;
        hold->missing[i] = is_done && !hold->given_up[i];
        if (is_done) trace_discard(windows->trace, number_of(hold, i));
    }
    if (hold->held[i] && !is_given && is_done) trace_unguard(windows->trace, number_of(hold, i));
}

/* Lets the threads go on that wait for pages. */
static struct came end_watch(struct hold *hold, const struct pageshare_window_row_order *todo) {
    int cause = faults_end_watch(&hold->window->windows->faults, place_of(hold, todo->first), todo->count);
    page_entry pages[HOLD_MOST];
    pageshare_process_read_pages(OF(hold->window), hold->first + todo->first, pages, todo->count);
    for (size_t i = 0; i < todo->count; i++) note_end(hold, todo->first + i, &pages[i], cause == 0);
    if (cause == 0) return (struct came){.done = todo->count};
    hold->stuck_cause = cause;
    return (struct came){.refused = todo->count};
}

/*
 * Has the kernel's page of zeros be there in place of what was given back. The monitor may have the page as one that is there: where it
 * watches for missing pages itself by now or later, as QEMU does for a postcopy, nobody would bring it another one. A page that the monitor
 * gave up stays missing. Nobody waits for any of them.
 */
static void show_zeros(const struct hold *hold) {
    for (size_t i = 0, count = 1; i < hold->count; i += count, count = 1) {
        while (i + count < hold->count && hold->missing[i + count] == hold->missing[i]) count++;
        if (!hold->missing[i] || madvise(place_of(hold, i), bytes_of(count), MADV_POPULATE_READ) == 0) continue;
        for (size_t page = i; page < i + count; page++) (void)*(const volatile uint8_t *)place_of(hold, page);
    }
}

/* Carries out the orders of a row, one after another. What the system refuses to let go is kept for a later look. */
static void carry_out(struct hold *hold) {
    static hold_do *const does[] = {
        [PAGESHARE_WINDOW_HOLD_COMPARE] = compare,   [PAGESHARE_WINDOW_HOLD_COMPARE_ZEROS] = compare,
        [PAGESHARE_WINDOW_HOLD_MAP] = map,           [PAGESHARE_WINDOW_HOLD_GIVE_BACK] = map,
        [PAGESHARE_WINDOW_HOLD_PUT_BACK] = put_back, [PAGESHARE_WINDOW_HOLD_END_WATCH] = end_watch,
    };
    struct window *window = hold->window;
    const size_t first = hold->first, count = hold->count;
    struct pageshare_window_row_order todo;
    while (pageshare_process_next_of_row(OF(window), first, hold->row, count, &todo), todo.step != PAGESHARE_WINDOW_HOLD_OVER) {
        const struct came came = does[todo.step](hold, &todo);
        pageshare_process_row_done(OF(window), first, hold->row, count, &todo, came.done, came.refused);
    }
    for (size_t i = 0; i < count; i++)
        if ((hold->row[i] & PAGESHARE_WINDOW_STUCK) != 0) add_stuck(window, first + i, hold->row[i], hold->scratch + i);
}

int free_stuck(struct windows *windows) {
    size_t count = windows->stuck_count;
    int cause = 0;
    bool any_remapped = false;
    windows->stuck_count = 0;
    for (size_t i = 0; i < count; i++) {
        const struct stuck stuck = windows->stuck[i];
        struct hold hold = {.window = stuck.window, .first = stuck.page, .count = 1, .scratch = stuck.scratch, .held = {true}};
        hold.row[0] = pageshare_window_row_again(stuck.byte);
        carry_out(&hold);
        show_zeros(&hold);
        cause = hold.stuck_cause != 0 ? hold.stuck_cause : cause;
        any_remapped = any_remapped || hold.any_remapped;
    }
    if (windows->stuck_count > 0) return cause;
    return any_remapped ? make_scratch(windows) : clear_scratch(windows);
}

/* Zeros that were mapped may count as a mapping by themselves. */
static void note_zeros(const struct hold *hold) {
    for (size_t i = 0, count = 1; i < hold->count; i += count, count = 1) {
        while (i + count < hold->count && hold->zeros[i + count] == hold->zeros[i]) count++;
        if (hold->zeros[i]) note_apart(hold->window, hold->first + i, count);
    }
}

/* Shows frames, or zeros, in place of pages in a row, where a page is equal to what is to be shown. With the lock. */
static void settle(struct hold *hold) {
    struct windows *windows = hold->window->windows;
    take(hold);
    carry_out(hold);
    if (hold->stuck_cause != 0) note_failure(windows, WINDOW_STUCK, hold->stuck_cause);
    int cause = hold->any_remapped && windows->stuck_count == 0 ? make_scratch(windows) : 0;
    if (cause != 0) note_failure(windows, WINDOW_NO_MAPPING, cause);
    note_zeros(hold);
    note_held(hold, hold->left);
    show_zeros(hold);
    for (size_t i = 0; i < hold->count; i++)
        pageshare_process_note_page(OF(hold->window), hold->first + i, PAGESHARE_PROCESS_HELD, hold->held[i]);
}

/*
 * Whether a page equals what it is to show, although it may still be written: otherwise it isn't held at all. The comparison that
 * counts comes later, and finds both in the processor's cache.
 */
static bool seems_equal(const struct window *window, size_t number, const page_entry *page) {
    const struct windows *windows = window->windows;
    if (belief_of(page) == (PAGESHARE_WINDOW_READY | PAGESHARE_WINDOW_ZEROS)) return is_zero(address_of(window, number));
    return page->frame < windows->lender.frame_count && windows->frames_at != NULL &&
           are_equal(address_of(window, number), windows->frames_at + bytes_of(page->frame));
}

/* How many of the first pages lie so near to each other, one behind the other, that the system is asked about all of them at once. */
static size_t in_one_call(const uint32_t *pages, size_t count) {
    enum { APART_MOST = 5 /* a call takes as long as so many pages more */ };
    size_t found = 1;
    while (found < count && pages[found] - pages[found - 1] <= APART_MOST && pages[found] - pages[0] < PART) found++;
    return found;
}

/* Pages of a list, while they come to be shown or copied. With the lock. */
struct listed {
    const uint32_t *numbers;
    size_t known;                /* of how many of the first pages the rest is known */
    uint8_t there[WINDOW_BATCH]; /* 1 for a page that is there */
    uint8_t left[WINDOW_BATCH];  /* PAGESHARE_WINDOW_TO_HOLD for one that is ordered to be held, and isn't settled yet */
    page_entry pages[WINDOW_BATCH];
};

/*
 * Finds which of the next pages are there, of those before `end`. One that was given up since it was found is missing, and reading it would put the
 * kernel's page of zeros there: who watches for missing pages later, as QEMU does for a postcopy, couldn't put another one in its place. While the lock
 * is held that stays so.
 */
static void find_there(const struct window *window, struct listed *listed, size_t end) {
    const uint32_t *numbers = listed->numbers + listed->known;
    const size_t count = in_one_call(numbers, end - listed->known), all = numbers[count - 1] - numbers[0] + 1;
    page_entry near[PART];
    bool own[PART];
    pageshare_process_read_pages(OF(window), numbers[0], near, all);
    pagemap_find_own(&window->windows->pagemap, address_of(window, numbers[0]), all, own);
    for (size_t i = 0; i < count; i++) {
        const size_t at = numbers[i] - numbers[0];
        listed->there[listed->known] = is_over(&near[at]) || own[at] ? 1 : 0;
        listed->pages[listed->known++] = near[at];
    }
}

void begin_turn(struct look *look) {
    struct turn *turn = &look->windows->turn;
    uint64_t losses = losses_of_processor(), now = look->spent_ns;
    if (losses != turn->losses) turn->begun_ns = turn->counted_ns;
    if (now - turn->begun_ns >= turn_ns) {
        sched_yield();
        losses = losses_of_processor();
        turn->begun_ns = now;
    }
    turn->losses = losses;
    turn->counted_ns = now;
}

/* What a page is to become. */
enum wish { TO_BE_SHOWN, TO_BE_GIVEN_BACK };

/* Notes of how many pages was answered that mappings are short for them. With the lock. */
static void note_left_out(struct windows *windows, const uint8_t *answers, size_t count) {
    size_t crowded = 0;
    for (size_t i = 0; i < count; i++) crowded += (answers[i] & PAGESHARE_WINDOW_ASK_CROWDED) != 0 ? 1 : 0;
    if (crowded > 0) note_crowded(windows, crowded);
}

/* Orders pages in a row to be held, and reads them then. */
static void order_holds(struct window *window, struct listed *listed, size_t from, size_t count, enum wish wish) {
    const unsigned kind = wish == TO_BE_SHOWN ? PAGESHARE_PROCESS_TO_HOLD : PAGESHARE_PROCESS_TO_GIVE_BACK;
    LIST(window, count, .kind = (uint8_t)kind, .numbers = listed->numbers + from, .answers = listed->left + from);
    note_left_out(window->windows, listed->left + from, count);
    pageshare_process_read_pages(OF(window), listed->numbers[from], listed->pages + from, count);
}

/* How many pages, from `from` on and before `end`, are ordered to be held, are there, and equal what they are to show. */
static size_t equal_run(const struct window *window, const struct listed *listed, size_t from, size_t end) {
    size_t i = from;
    while (i < end && listed->left[i] == PAGESHARE_WINDOW_TO_HOLD && listed->there[i] != 0 &&
           seems_equal(window, listed->numbers[i], &listed->pages[i]))
        i++;
    return i - from;
}

/* Refuses the orders of those pages that are left: they are others than those that were found. */
static void refuse_holds(struct window *window, const struct listed *listed, size_t from, size_t count) {
    uint8_t outcomes[HOLD_MOST], answers[HOLD_MOST];
    for (size_t i = 0; i < count; i++) {
        const bool is_left = listed->left[from + i] == PAGESHARE_WINDOW_TO_HOLD;
        outcomes[i] = is_left ? PAGESHARE_WINDOW_COPY_CHANGED : PAGESHARE_WINDOW_NOT_COPIED;
        window->windows->counts.changed += is_left ? 1 : 0;
    }
    LIST(window, count, .kind = PAGESHARE_PROCESS_COPIED, .numbers = listed->numbers + from, .given = outcomes,
         .answers = answers);
}

/* How many pages from `from` on are in a row, and all over frames or none. */
static size_t in_row(const struct listed *listed, size_t from) {
    const uint32_t *numbers = listed->numbers + from;
    const page_entry *pages = listed->pages + from;
    size_t found = 1;
    while (from + found < listed->known && found < HOLD_MOST && numbers[found] == numbers[0] + found &&
           is_over(&pages[found]) == is_over(&pages[0]))
        found++;
    return found;
}

/* Pages of a window, all of them in it, among which frames were mapped of which not all is said yet. */
struct unsaid {
    size_t first, end;
};

/* Says it, by one call of the system for all of them: of the pages between it was said before. */
static void say_unsaid(struct window *window, struct unsaid *unsaid) {
    if (unsaid->end > unsaid->first) say_again(window, unsaid->first, unsaid->end - unsaid->first, true, true);
    *unsaid = (struct unsaid){.end = 0};
}

/* Adds pages in a row. What lies too far behind those before, or behind a page that has left the window, is said by a call of its own. */
static void add_unsaid(struct window *window, struct unsaid *unsaid, size_t first, size_t count) {
    enum { APART_MOST = 16 /* a call takes as long as so many pages more */ };
    bool is_near = unsaid->end > unsaid->first && first >= unsaid->end && first - unsaid->end <= APART_MOST;
    if (!is_near || has_kind(window, unsaid->end, first, PAGESHARE_WINDOW_KIND_LEFT | PAGESHARE_WINDOW_KIND_GONE)) {
        say_unsaid(window, unsaid);
        unsaid->first = first;
    }
    unsaid->end = first + count;
}

/* Settles pages in a row, all of which are ordered to be held. With the lock. */
static void settle_run(struct window *window, size_t first, size_t count, struct unsaid *unsaid) {
    struct hold hold = {.window = window, .first = first, .count = count};
    settle(&hold);
    if (hold.any_copies) add_unsaid(window, unsaid, first, count);
}

/*
 * Settles pages from `from` on that are in a row. Each is compared with what it is to show before it is held, since all of it may have changed since it
 * was found idle. Returns how many are settled, or stay as they are.
 */
static size_t settle_row(struct window *window, struct listed *listed, size_t from, enum wish wish, struct unsaid *unsaid) {
    const size_t count = in_row(listed, from), end = from + count;
    order_holds(window, listed, from, count, wish);
    for (size_t i = from, run = 0; i<end; i += run> 0 ? run : 1) {
        /* (while a page is stuck none is held) */
        run = window->windows->stuck_count == 0 ? equal_run(window, listed, i, end) : 0;
        if (run > 0) settle_run(window, listed->numbers[i], run, unsaid);
        memset(listed->left + i, 0, run);
    }
    refuse_holds(window, listed, from, count);
    return count;
}

/*
 * Settles the first of some pages, a row at a time. The lock is taken once, and the system asked once which pages are there, since each takes
 * as long as a page does. Returns how many are settled, or stay as they are. Takes the lock.
 */
static size_t settle_some(struct look *look, const uint32_t *pages, size_t count, enum wish wish) {
    struct windows *windows = look->windows;
    struct unsaid unsaid = {.end = 0};
    struct listed listed = {.numbers = pages};
    size_t done = 0;
    begin_turn(look);
    lock_for_look(windows);
    for (size_t rows = 0; rows < ROWS_MOST && done < least(count, SETTLE_MOST) && windows->stuck_count == 0; rows++) {
        if (done == listed.known) find_there(look->window, &listed, least(count, SETTLE_MOST + HOLD_MOST));
        done += settle_row(look->window, &listed, done, wish, &unsaid);
    }
    say_unsaid(look->window, &unsaid);
    unlock_set(windows);
    return done > 0 ? done : 1;
}

/* Takes the first pages away. */
static void take_away(struct found *found, size_t count) {
    found->count -= count;
    memmove(found->pages, found->pages + count, found->count * sizeof found->pages[0]);
    memmove(found->fingerprints, found->fingerprints + count, found->count * sizeof found->fingerprints[0]);
}

bool give_zeros_back(struct look *look) {
    struct found *zeros = &look->zeros;
    if (zeros->count > 0) take_away(zeros, settle_some(look, zeros->pages, zeros->count, TO_BE_GIVEN_BACK));
    return zeros->count > 0;
}

bool hold_loaned(struct look *look) {
    struct batch *batch = &look->batch;
    size_t left = batch->count - batch->done;
    if (left > 0) batch->done += settle_some(look, batch->pages + batch->done, left, TO_BE_SHOWN);
    return batch->done < batch->count;
}

void lender_failed(struct windows *windows, int cause) {
    windows->lender_waits = cause == ENOTCONN || cause == EPIPE || cause == ECONNRESET || cause == ETIMEDOUT;
    note_failure(windows, WINDOW_LENDER_FAILED, cause);
    lock_for_look(windows);
    windows->counts.lender_failures++;
    if (windows->lender_waits) windows->counts.pause = WINDOWS_NO_LENDER;
    unlock_set(windows);
}

/* Leaves those pages of a batch that are to be asked about, or lent. */
static void keep_asked(struct batch *batch, const uint8_t *answers) {
    size_t kept = 0;
    for (size_t i = 0; i < batch->count; i++) {
        batch->fingerprints[kept] = batch->fingerprints[i];
        batch->pages[kept] = batch->pages[i];
        kept += (answers[i] & PAGESHARE_WINDOW_ASK) != 0 ? 1 : 0;
    }
    batch->count = kept;
}

/* Takes the answers to questions. Leaves those pages of the batch that others have, and that can be lent. Takes the lock. */
static void take_answers(struct window *window, struct batch *batch, const uint8_t *seen) {
    struct windows *windows = window->windows;
    const size_t count = batch->count;
    uint8_t answers[WINDOW_BATCH] = {0};
    lock_for_look(windows);
    LIST(window, count, .kind = PAGESHARE_PROCESS_ANSWERED, .numbers = batch->pages, .fingerprints = batch->fingerprints,
         .given = seen, .answers = answers);
    note_left_out(windows, answers, count);
    for (size_t i = 0; i < count; i++) windows->counts.seen += seen[i] != 0 ? 1 : 0;
    windows->counts.asked += count;
    unlock_set(windows);
    keep_asked(batch, answers);
}

/*
 * Takes those of the first idle pages that could be lent, and for each of which by itself the system has mappings. Writes the number of each
 * among all windows' pages, and whether others mustn't find it by the question. Takes the lock.
 */
static void take_lendable(struct look *look, uint32_t *numbers, bool *passing) {
    struct batch *batch = &look->batch;
    struct window *window = look->window;
    struct windows *windows = look->windows;
    const size_t count = least(look->idle.count, WINDOW_BATCH);
    uint8_t answers[WINDOW_BATCH] = {0};
    lock_for_look(windows);
    LIST(window, count, .kind = PAGESHARE_PROCESS_TO_ASK, .numbers = look->idle.pages, .look = look_now(windows),
         .answers = answers);
    note_left_out(windows, answers, count);
    unlock_set(windows);
    for (size_t i = 0, n = 0; i < count; i++) {
        numbers[n] = window->base + look->idle.pages[i];
        passing[n] = (answers[i] & PAGESHARE_WINDOW_ASK_IN_PASSING) != 0;
        n += (answers[i] & PAGESHARE_WINDOW_ASK) != 0 ? 1 : 0;
    }
    memcpy(batch->fingerprints, look->idle.fingerprints, count * sizeof batch->fingerprints[0]);
    memcpy(batch->pages, look->idle.pages, count * sizeof batch->pages[0]);
    batch->count = count;
    keep_asked(batch, answers);
}

bool ask_lender(struct look *look) {
    struct windows *windows = look->windows;
    struct batch *batch = &look->batch;
    uint32_t numbers[WINDOW_BATCH];
    bool passing[WINDOW_BATCH];
    unsigned char seen[WINDOW_BATCH] = {0};
    batch->count = 0;
    if (windows->has_lender && !windows->lender_waits) take_lendable(look, numbers, passing);
    take_away(&look->idle, least(look->idle.count, WINDOW_BATCH));
    if (batch->count == 0) return false;
    int cause = windows->lender.ask(windows->lender.opaque, numbers, batch->fingerprints, passing, batch->count, seen);
    if (cause == 0) take_answers(look->window, batch, seen);
    else lender_failed(windows, cause);
    return cause == 0 && batch->count > 0;
}

/*
 * Whether a copy is of the page that a look found, by the check that is due. What a glance misses costs a loan at most, since the host compares
 * whole pages, and so does the thread before it maps a frame.
 */
static bool is_as_found(const struct windows *windows, const page_entry *page, uint8_t check, const unsigned char *copy,
                        uint64_t fingerprint) {
    if (check == PAGESHARE_WINDOW_CHECK_FINGERPRINT) return fingerprint_of(windows->lender.salt, copy) == fingerprint;
    return check == PAGESHARE_WINDOW_CHECK_GLANCE && glance_at(fingerprint, copy) == clue_in(page);
}

/* Copies a page of a batch to a place in the lender's buffer, with nothing guarded. Returns enum pageshare_window_copied. With the lock. */
static uint8_t copy_one(struct look *look, size_t i, uint8_t check, const page_entry *page, unsigned char *to) {
    const struct batch *batch = &look->batch;
    if (check == PAGESHARE_WINDOW_CHECK_NO_COPY) return PAGESHARE_WINDOW_NOT_COPIED;
    copy_page(to, address_of(look->window, batch->pages[i]));
    const bool is_same = is_as_found(look->windows, page, check, to, batch->fingerprints[i]);
    look->windows->counts.changed += is_same ? 0 : 1;
    if (!is_same) return PAGESHARE_WINDOW_COPY_CHANGED;
    return is_zero(to) ? PAGESHARE_WINDOW_COPY_ZEROS : PAGESHARE_WINDOW_COPY_GOOD;
}

/* Finds how the copy of each page of a batch is checked: enum pageshare_window_check. With the lock. */
static void find_copies(struct window *window, const struct batch *batch, struct listed *listed, uint8_t *checks) {
    const size_t count = batch->count;
    while (listed->known < count) find_there(window, listed, count);
    LIST(window, count, .kind = PAGESHARE_PROCESS_TO_COPY, .numbers = batch->pages, .given = listed->there,
         .fingerprints = batch->fingerprints, .answers = checks);
}

/* Leaves those pages of the batch that can be lent still. Nothing is guarded: their users may write to them. */
bool copy_for_lender(struct look *look) {
    struct windows *windows = look->windows;
    struct batch *batch = &look->batch;
    size_t kept = 0;
    uint32_t copied[WINDOW_BATCH];
    uint8_t checks[WINDOW_BATCH] = {0}, outcomes[WINDOW_BATCH], lends[WINDOW_BATCH];
    struct listed listed = {.numbers = batch->pages};
    lock_for_look(windows);
    find_copies(look->window, batch, &listed, checks);
    for (size_t i = 0; i < batch->count; i++) {
        outcomes[i] = copy_one(look, i, checks[i], &listed.pages[i], windows->lender.pages[kept]);
        copied[kept] = batch->pages[i];
        kept += outcomes[i] == PAGESHARE_WINDOW_COPY_GOOD ? 1 : 0;
    }
    /* (the lock was held: of each good copy a loan is to be asked for) */
    LIST(look->window, batch->count, .kind = PAGESHARE_PROCESS_COPIED, .numbers = batch->pages, .given = outcomes,
         .answers = lends);
    unlock_set(windows);
    memcpy(batch->pages, copied, kept * sizeof copied[0]);
    batch->count = kept;
    return kept > 0;
}

/* Notes what was answered to a loan, or to none. With the lock. */
static void note_loan(struct windows *windows, uint32_t frame, uint8_t answer) {
    const bool is_read =
        (answer & PAGESHARE_WINDOW_LOAN_IN_FILE) != 0 && windows->frames_at != NULL; /* (not once lending has ended) */
    windows->counts.no_frame += (answer & PAGESHARE_WINDOW_LOAN_NO_FRAME) != 0 ? 1 : 0;
    if ((answer & PAGESHARE_WINDOW_LOAN_WRONG) != 0) note_failure(windows, WINDOW_LENDER_FAILED, EPROTO);
    if (is_read) trace_frame(windows->trace, frame, windows->frames_at + bytes_of(frame));
}

/* Takes the loans of a batch, or that none was made: a slot is released if its page doesn't come to show the frame. Leaves the pages that have
 * one. Takes the lock. */
static void take_loans(struct window *window, struct batch *batch, const struct window_loan *loans, bool are_got) {
    struct windows *windows = window->windows;
    const size_t count = batch->count;
    size_t kept = 0;
    uint64_t slots[WINDOW_BATCH];
    uint32_t frames[WINDOW_BATCH];
    uint8_t answers[WINDOW_BATCH] = {0};
    for (size_t i = 0; i < count; i++) slots[i] = loans[i].slot, frames[i] = loans[i].frame;
    lock_for_look(windows);
    LIST(window, count, .kind = PAGESHARE_PROCESS_LOANED, .numbers = batch->pages, .slots = slots, .frames = frames,
         .file_frames = windows->lender.frame_count, .is_heard = are_got, .answers = answers);
    for (size_t i = 0; i < count; i++) {
        note_loan(windows, frames[i], answers[i]);
        batch->pages[kept] = batch->pages[i];
        kept += (answers[i] & PAGESHARE_WINDOW_LOAN_GOT) != 0 ? 1 : 0;
    }
    unlock_set(windows);
    batch->count = kept;
    batch->done = 0;
}

bool ask_for_loans(struct look *look) {
    struct windows *windows = look->windows;
    struct batch *batch = &look->batch;
    uint32_t numbers[WINDOW_BATCH];
    struct window_loan loans[WINDOW_BATCH];
    for (size_t i = 0; i < batch->count; i++) numbers[i] = look->window->base + batch->pages[i];
    for (size_t i = 0; i < batch->count; i++) loans[i] = (struct window_loan){.frame = WINDOW_NO_FRAME};
    int cause = windows->lender.lend(windows->lender.opaque, numbers, batch->count, loans);
    if (cause != 0) lender_failed(windows, cause);
    if (cause == 0 || cause == ENOTCONN || cause == EINVAL) take_loans(look->window, batch, loans, cause == 0);
    else batch->count = 0, windows->awaits_loans = true; /* it isn't known what was lent: lender.h */
    return batch->count > 0;
}
