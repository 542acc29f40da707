/*
 * The table of ranges that were offered, beside a list of whose each page is. Ranges are added, become windows and are taken out, as chance
 * has it, also between addresses within pages. The memory is nowhere: nothing reads it. Returns 1 at the first difference, and says where.
 */
#define _GNU_SOURCE
#include "ranges.h"
#include "trouble.h"
#include <stdbool.h>
#include <stdio.h>
#include <stdlib.h>

enum { PAGES = 4096, WINDOWS = 900, RANGE_MOST = 600, PIECE_MOST = 6, TURNS = 60000, KINDS = 8 };
#define BEGIN ((uintptr_t)0x7f0000000000)

/* Whose a page is: a window's, nobody's yet, or no range's. Windows are addresses that nobody reads. */
struct owner {
    bool is_offered;
    struct window *window;
    size_t first;
};
static struct owner owners[PAGES];
static uint64_t state = 1;

static size_t chance(size_t below) {
    state = state * UINT64_C(6364136223846793005) + UINT64_C(1442695040888963407);
    return (size_t)(state >> 33) % below;
}

static uint8_t *at_page(size_t page) { return (uint8_t *)(BEGIN + page * PAGE); }
static size_t page_at(const uint8_t *at) { return ((uintptr_t)at - BEGIN) / PAGE; }

static void must(bool is_so, const char *what, size_t page) {
    if (is_so) return;
    printf("  page %zu: %s, after which %zu ranges are left\n", page, what, ranges_count());
    exit(1);
}

static bool is_offered(size_t begin, size_t end) {
    for (size_t page = begin; page < end; page++)
        if (owners[page].is_offered) return true;
    return false;
}

/* Whether a page behind or before these is the window's. */
static bool has_others(const struct window *window, size_t begin, size_t end) {
    for (size_t page = 0; page < PAGES; page++)
        if ((page < begin || page >= end) && owners[page].is_offered && owners[page].window == window) return true;
    return false;
}

/* A piece is whose the list says, and before it there is no page of a range. */
static void check_piece(const struct piece *piece, size_t from, size_t to) {
    size_t begin = page_at(piece->at), end = begin + piece->bytes / PAGE;
    must(begin >= from && begin < end && end <= to, "a piece lies elsewhere", begin);
    must(!is_offered(from, begin), "a piece was passed over", from);
    for (size_t page = begin; page < end; page++) {
        const struct owner *owner = &owners[page];
        must(owner->is_offered && owner->window == piece->window, "a page is another window's", page);
        must(!piece->window || owner->first == piece->first + page - begin, "a page has another number", page);
    }
}

/* The next piece between two addresses within these pages. */
static struct piece find(size_t from, size_t to) {
    const uint8_t *begin = at_page(from) + chance(PAGE), *end = at_page(to) - chance(PAGE);
    struct piece piece = ranges_next(begin, end);
    must(!is_offered(from, to) || begin >= end || ranges_near(begin, end), "a range is said to be far", from);
    if (piece.range == NULL) must(begin >= end || !is_offered(from, to), "a range wasn't found", from);
    else check_piece(&piece, from, to);
    return piece;
}

static void offer(void) {
    size_t begin = chance(PAGES), most = PAGES - begin, count = chance(RANGE_MOST) % most + 1;
    bool due = !is_offered(begin, begin + count) && ranges_count() < RANGES_MOST;
    must(ranges_add(at_page(begin), count * PAGE, begin) == due, "a range was added, or it wasn't", begin);
    for (size_t page = begin; due && page < begin + count; page++) owners[page] = (struct owner){.is_offered = true};
}

/* A range of which nothing was taken out becomes a window. */
static void become(size_t turn) {
    const struct piece piece = ranges_count() > 0 ? ranges_at(chance(ranges_count())) : (struct piece){.range = NULL};
    if (piece.range == NULL || piece.window != NULL) return;
    struct window *window = (struct window *)(uintptr_t)(turn % WINDOWS + 1);
    size_t begin = page_at(piece.at), count = piece.bytes / PAGE;
    if (has_others(window, 0, 0)) return;
    ranges_become(piece.range, window);
    for (size_t i = 0; i < count; i++) owners[begin + i] = (struct owner){.is_offered = true, .window = window, .first = i};
}

/* A piece is taken out, or else its whole range. */
static void leave(void) {
    size_t from = chance(PAGES), most = PAGES - from, to = from + chance(PIECE_MOST) % most + 1;
    struct piece piece = find(from, to);
    if (piece.range == NULL) return;
    size_t begin = page_at(piece.at), end = begin + piece.bytes / PAGE;
    const uint64_t of_range[] = {piece.range->begin - BEGIN / PAGE, piece.range->end - BEGIN / PAGE};
    if (piece.window != NULL)
        must(ranges_are_all(&piece) == !has_others(piece.window, begin, end), "a piece is all of its window, or it isn't", begin);
    bool has_both = of_range[0] < begin && end < of_range[1], due = !has_both || ranges_count() < RANGES_MOST;
    must(ranges_take_out(&piece) == due, "a piece was taken out, or it wasn't", begin);
    if (!due) {
        ranges_remove(&piece);
        begin = of_range[0];
        end = of_range[1];
    }
    for (size_t page = begin; page < end; page++) owners[page] = (struct owner){.is_offered = false};
    must(piece.window == NULL || ranges_are_of(piece.window) == has_others(piece.window, 0, 0), "a window has ranges, or it hasn't", begin);
}

/* Goes from piece to piece through all pages. */
static void look_at_all(void) {
    size_t page = 0;
    while (page < PAGES) {
        const struct piece piece = ranges_next(at_page(page), at_page(PAGES));
        if (piece.range == NULL) break;
        check_piece(&piece, page, PAGES);
        page = page_at(piece.at) + piece.bytes / PAGE;
    }
    must(!is_offered(page, PAGES), "a range wasn't found", page);
}

int main(void) {
    size_t most = 0;
    for (size_t turn = 0; turn < TURNS; turn++) {
        size_t kind = chance(KINDS);
        /* (in turns there are more ranges that come, and more that leave) */
        if (kind == 0 || (kind == 1 && turn % KINDS > KINDS / 2)) offer();
        else if (kind < KINDS / 2) become(turn);
        else leave();
        most = ranges_count() > most ? ranges_count() : most;
        if (turn % PIECE_MOST == 0) look_at_all();
    }
    printf("  %d turns, at most %zu ranges\n", TURNS, most);
    return most == RANGES_MOST ? 0 : 1;
}
