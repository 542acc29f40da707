/*
 * The ranges that a monitor has offered, and which of them are windows, or parts of one. The proved library finds their pieces and takes
 * them out. A table without a lock: sharing.c has the lock, and calls all of this with it, but for ranges_near.
 */
#ifndef HOST_RANGES_H
#define HOST_RANGES_H

#include "pageshare_window.h"
#include "window.h"

enum { RANGES_MOST = 256 };

/*
 * A range, or a part of one, that a call of the monitor is about. It is right until a range is added or taken out. Pages that have left the
 * window may be in it: window_run says which.
 */
struct piece {
    struct pageshare_window_range *range; /* NULL: there is none */
    uint8_t *at;
    size_t bytes;
    struct window *window; /* NULL: it isn't one yet */
    size_t first;          /* the number of its first page in the window */
};

/* Whether a range may be between two addresses. Right at any time, also without the lock. */
bool ranges_near(const uint8_t *at, const uint8_t *end);

/* The first piece of a range between two addresses. If there is none, it is empty and lies at `end`. */
struct piece ranges_next(const uint8_t *at, const uint8_t *end);
/* The i-th range, of ranges_count. Taking it out moves the ranges behind it one place ahead. */
struct piece ranges_at(size_t i);
size_t ranges_count(void);
/* Whether a range is left of a window. */
bool ranges_are_of(const struct window *window);
/* Whether a piece is a whole range. */
bool ranges_are_whole(const struct piece *piece);
/* Whether a piece is all that is left of its window. */
bool ranges_are_all(const struct piece *piece);

/* Adds a range that isn't a window yet. Returns false if there is no place for it. */
bool ranges_add(uint8_t *at, size_t bytes, uint64_t now_ns);
/* A range has become a window. */
void ranges_become(struct pageshare_window_range *range, struct window *window);
/* The window of some ranges has ended, and they aren't windows any more. */
void ranges_end_being(const struct window *window);
/*
 * Takes a piece out of its range, of which one or two parts may be left. Returns false if there is no place for the second one: then
 * nothing has changed.
 */
bool ranges_take_out(const struct piece *piece);
/* Takes the whole range of a piece out. */
void ranges_remove(const struct piece *piece);

#endif
