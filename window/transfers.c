/* Transfers by O_DIRECT that are under way: which pages a device may have pinned for them. */
#define _GNU_SOURCE
#include "set.h"
#include <string.h>

enum { PLACES_AT_FIRST = 256 };

/* A place for the memory of a transfer. `next`: one more than the next place, of the same call or free as well; 0: there is none. */
struct transfer_place {
    struct pageshare_window_transfer is;
    size_t next;
};

/* The pages of a window that lie between two addresses. */
static void find_pages(const struct window *window, uint64_t begin, uint64_t end, size_t *first, size_t *count) {
    const uint64_t at = (uintptr_t)window->at, stop = at + bytes_of(window->count);
    *first = *count = 0;
    if (begin >= stop || end <= at || begin >= end) return;
    *first = begin > at ? (size_t)(begin - at) / WINDOW_PAGE_BYTES : 0;
    size_t behind = end < stop ? (size_t)(end - at + WINDOW_PAGE_BYTES - 1) / WINDOW_PAGE_BYTES : window->count;
    *count = behind - *first;
}

/* Counts a transfer at each of its pages of a window. Returns false, and has counted nothing, if that can't be. */
static bool count_at(struct window *window, const struct pageshare_window_transfer *transfer) {
    size_t first, count;
    find_pages(window, transfer->begin, transfer->end, &first, &count);
    return count == 0 || pageshare_process_pin(OF(window), first, count, true);
}

/* Counts it no more, at windows before this one. */
static void count_no_more(struct windows *windows, const struct pageshare_window_transfer *transfer, const struct window *stop) {
    size_t first, count;
    for (struct window *window = windows->first; window != stop; window = window->next) {
        find_pages(window, transfer->begin, transfer->end, &first, &count);
        if (count > 0) pageshare_process_pin(OF(window), first, count, false);
    }
}

static bool count_everywhere(struct windows *windows, const struct pageshare_window_transfer *transfer) {
    for (struct window *window = windows->first; window != NULL; window = window->next) {
        if (count_at(window, transfer)) continue;
        count_no_more(windows, transfer, window);
        return false;
    }
    return true;
}

bool count_transfers(struct window *window) {
    const struct windows *windows = window->windows;
    for (size_t i = 0; i < windows->places_count; i++)
        if (windows->places[i].is.is_there && !count_at(window, &windows->places[i].is)) return false;
    return true;
}

/* Makes the table of places twice as large. Returns false if there is no memory. */
static bool make_places(struct windows *windows) {
    const size_t before = windows->places_count, count = before > 0 ? 2 * before : PLACES_AT_FIRST;
    struct transfer_place *places = table_make(count, sizeof *places);
    if (places == NULL) return false;
    if (before > 0) memcpy(places, windows->places, before * sizeof *places);
    for (size_t i = before; i + 1 < count; i++) places[i].next = i + 2;
    table_free(windows->places, before, sizeof *places);
    windows->places = places;
    windows->places_count = count;
    windows->places_free = before + 1;
    return true;
}

/* Begins a transfer at a free place. Returns false if there is none, or if its pages can't be counted: then it is elsewhere. */
static bool begin_one(struct windows *windows, uint64_t begin, uint64_t end, struct windows_transfer *begun) {
    struct pageshare_window_transfer none = {.is_there = false};
    bool has_place = windows->places_free > 0 || make_places(windows);
    struct transfer_place *place = has_place ? &windows->places[windows->places_free - 1] : NULL;
    struct pageshare_window_transfer *its = has_place ? &place->is : &none;
    pageshare_window_begin_transfer(its, has_place ? 1 : 0, &windows->transfers_elsewhere, begin, end);
    if (!has_place) return false;
    if (!count_everywhere(windows, its)) {
        pageshare_window_end_transfer(its, 1, &windows->transfers_elsewhere, 0);
        pageshare_window_begin_transfer(its, 0, &windows->transfers_elsewhere, begin, end);
        return false;
    }
    const size_t number = windows->places_free;
    windows->places_free = place->next;
    place->next = begun->first;
    begun->first = number;
    return true;
}

struct windows_transfer windows_transfer_begin(struct windows *windows, const struct iovec *buffers, size_t count) {
    struct windows_transfer begun = {0};
    lock_set(windows);
    for (size_t i = 0; i < count; i++) {
        const uint64_t begin = (uintptr_t)buffers[i].iov_base;
        bool is_empty = buffers[i].iov_len == 0;
        if (!is_empty && !begin_one(windows, begin, begin + buffers[i].iov_len, &begun)) begun.elsewhere++;
    }
    follow_facts(windows);
    unlock_set(windows);
    return begun;
}

void windows_transfer_end(struct windows *windows, struct windows_transfer transfer) {
    struct pageshare_window_transfer none = {.is_there = false};
    lock_set(windows);
    for (size_t number = transfer.first, next = 0; number > 0; number = next) {
        struct transfer_place *place = &windows->places[number - 1];
        count_no_more(windows, &place->is, NULL);
        pageshare_window_end_transfer(&place->is, 1, &windows->transfers_elsewhere, 0);
        next = place->next;
        place->next = windows->places_free;
        windows->places_free = number;
    }
    for (size_t i = 0; i < transfer.elsewhere; i++) pageshare_window_end_transfer(&none, 0, &windows->transfers_elsewhere, 0);
    follow_facts(windows);
    unlock_set(windows);
}

size_t bytes_of_places(const struct windows *windows) { return windows->places_count * sizeof *windows->places; }

void free_places(struct windows *windows) { table_free(windows->places, windows->places_count, sizeof *windows->places); }
