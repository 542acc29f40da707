/* The slots of windows that aren't released yet, for tests. */
#ifndef PAGESHARE_WINDOW_SLOTS_H
#define PAGESHARE_WINDOW_SLOTS_H

#include "../set.h"

/* What is called for every slot. `shown`: the page may show the slot's frame still. Returns 0 if it is right. */
typedef int slot_each(void *opaque, uint32_t page, uint64_t slot, bool shown);

/* Calls it for those of a part. Returns how many calls didn't return 0. With the lock. */
static inline int each_slot_of(const struct window *window, size_t first, slot_each *each, void *opaque) {
    int wrong = 0;
    page_entry pages[PART];
    const size_t count = rest_of_part(window, first);
    pageshare_process_read_pages(OF(window), first, pages, count);
    for (size_t i = 0; i < count; i++) {
        const uint32_t number = window->base + (uint32_t)(first + i);
        if (has_slot(&pages[i]) && each(opaque, number, slot_number(pages[i].slot), is_lent(&pages[i])) != 0) wrong++;
    }
    return wrong;
}

/* Calls it for all of them. */
static inline int each_slot(struct windows *windows, slot_each *each, void *opaque) {
    int wrong = 0;
    lock_set(windows);
    for (struct window *window = windows->first; window != NULL; window = window->next)
        for (size_t page = 0; page < window->count; page += rest_of_part(window, page))
            wrong += each_slot_of(window, page, each, opaque);
    unlock_set(windows);
    return wrong;
}

#endif
