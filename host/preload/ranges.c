#define _GNU_SOURCE
#include "ranges.h"
#include "trouble.h"
#include <stdatomic.h>

static struct pageshare_window_range ranges[RANGES_MOST];
static size_t count;
static atomic_uintptr_t lowest, highest; /* all ranges lie between them; 0: there is none */

static uint64_t number_of(const uint8_t *at) { return (uintptr_t)at / PAGE; }

/* Of the page behind what ends here. */
static uint64_t number_behind(const uint8_t *end) { return ((uintptr_t)end + PAGE - 1) / PAGE; }

static uint8_t *address_of(uint64_t number) { return (uint8_t *)(uintptr_t)(number * PAGE); }

static struct window *window_of(uint64_t window) { return (struct window *)(uintptr_t)window; }

static void set_bounds(void) {
    struct pageshare_window_range_bounds bounds;
    pageshare_window_bounds(ranges, count, &bounds);
    atomic_store(&lowest, bounds.begin * PAGE);
    atomic_store(&highest, bounds.end * PAGE);
}

bool ranges_near(const uint8_t *at, const uint8_t *end) {
    return at < end && (uintptr_t)end > atomic_load(&lowest) && (uintptr_t)at < atomic_load(&highest);
}

struct piece ranges_next(const uint8_t *at, const uint8_t *end) {
    struct pageshare_window_piece found;
    if (at >= end || !pageshare_window_next_piece(ranges, count, number_of(at), number_behind(end), &found))
        return (struct piece){.at = (uint8_t *)(uintptr_t)end};
    return (struct piece){.range = &ranges[found.place],
                          .at = address_of(found.begin),
                          .bytes = (size_t)(found.end - found.begin) * PAGE,
                          .window = window_of(found.window),
                          .first = (size_t)found.first};
}

struct piece ranges_at(size_t i) {
    return ranges_next(address_of(ranges[i].begin), address_of(ranges[i].end));
}

size_t ranges_count(void) { return count; }

bool ranges_are_of(const struct window *window) { return pageshare_window_is_part_left(ranges, count, (uintptr_t)window); }

bool ranges_are_whole(const struct piece *piece) {
    return piece->range->begin == number_of(piece->at) && piece->range->end == number_of(piece->at + piece->bytes);
}

bool ranges_are_all(const struct piece *piece) {
    const size_t place = (size_t)(piece->range - ranges);
    return pageshare_window_is_all_left(ranges, count, place, number_of(piece->at), number_of(piece->at + piece->bytes));
}

bool ranges_add(uint8_t *at, size_t bytes, uint64_t now_ns) {
    bool is_added = pageshare_window_add_range(ranges, RANGES_MOST, &count, number_of(at), number_of(at + bytes), now_ns);
    set_bounds();
    return is_added;
}

void ranges_become(struct pageshare_window_range *range, struct window *window) {
    range->window = (uintptr_t)window;
    range->base = range->begin;
}

void ranges_end_being(const struct window *window) {
    for (size_t i = 0; i < count; i++)
        if (window_of(ranges[i].window) == window) ranges[i].window = ranges[i].base = 0;
}

/* Takes pages out of a range. */
static bool take_out(const struct pageshare_window_range *range, uint64_t begin, uint64_t end) {
    bool is_out = pageshare_window_take_out(ranges, RANGES_MOST, &count, (size_t)(range - ranges), begin, end);
    set_bounds();
    return is_out;
}

bool ranges_take_out(const struct piece *piece) {
    return take_out(piece->range, number_of(piece->at), number_of(piece->at + piece->bytes));
}

void ranges_remove(const struct piece *piece) { take_out(piece->range, piece->range->begin, piece->range->end); }
