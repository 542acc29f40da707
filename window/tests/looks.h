/* A look of a test, and what is so after each. */
#ifndef PAGESHARE_WINDOW_LOOKS_H
#define PAGESHARE_WINDOW_LOOKS_H

#include "../set.h"
#include "check.h"

/* Whether this may be believed of a page between looks: nothing that only a step of a look may believe. */
static inline bool lasts(const page_entry *page) {
    unsigned belief = belief_of(page);
    bool is_loan = belief == PAGESHARE_WINDOW_READY || belief == PAGESHARE_WINDOW_SHOWN || belief == PAGESHARE_WINDOW_LEAVING;
    bool is_stuck = (belief & ~(unsigned)PAGESHARE_WINDOW_ZEROS) == PAGESHARE_WINDOW_LETTING_GO;
    return !is_ordered(page) && (belief == PAGESHARE_WINDOW_PRIVATE || is_loan || is_stuck);
}

/* Whether the host counts a slot for a page. */
static inline bool has_slot(const page_entry *page) {
    return belief_of(page) >= PAGESHARE_WINDOW_READY && belief_of(page) <= PAGESHARE_WINDOW_LEAVING;
}

/* Whether the counts of a part are those of its pages. */
static inline bool are_counted(const page_entry *pages, size_t count, const struct pageshare_window_counts *counts) {
    unsigned releases = 0, lent = 0, zeros = 0, past = 0, shareable = 0;
    for (size_t i = 0; i < count; i++) {
        releases += has_slot(&pages[i]) && !is_lent(&pages[i]) ? 1 : 0;
        lent += is_lent(&pages[i]) ? 1 : 0;
        zeros += is_given_back(&pages[i]) ? 1 : 0;
        past += shows_past(&pages[i]) ? 1 : 0;
        shareable += is_seen(&pages[i]) ? 1 : 0;
    }
    bool are_slots = counts->releases == releases && counts->lent == lent;
    return are_slots && counts->zeros == zeros && counts->past == past && counts->shareable == shareable;
}

/* Whether no page of a part is half done. `*is_counted`: and all are counted, as those of parts before are. With the lock. */
static inline bool part_lasts(const struct window *window, size_t first, bool *is_counted) {
    const struct pageshare_window_counts counts = part_of(window, first).counts;
    const size_t count = rest_of_part(window, first);
    page_entry pages[PART];
    bool all_last = pageshare_process_read_pages(OF(window), first, pages, count);
    for (size_t i = 0; i < count && all_last; i++) all_last = lasts(&pages[i]);
    *is_counted = *is_counted && are_counted(pages, count, &counts);
    return all_last;
}

/* Between looks nothing is ordered, nothing is half done, and all is counted, but for pages of a lend whose reply was lost. */
static inline void check_between_looks(struct windows *windows) {
    bool are_so = true, is_counted = true;
    pthread_mutex_lock(&windows->lock);
    for (const struct window *window = windows->first; window != NULL; window = window->next)
        for (size_t page = 0; page < window->count; page += rest_of_part(window, page))
            are_so = part_lasts(window, page, &is_counted) && are_so;
    pthread_mutex_unlock(&windows->lock);
    check(are_so, "no step of a look is left half done");
    check(is_counted, "the counts of each part are those of its pages");
}

static inline struct window_result look(struct windows *windows) {
    struct window_result result = windows_look(windows);
    windows_taken_up(windows); /* (a lender that refused a call made no loan) */
    check_between_looks(windows);
    return result;
}

#endif
