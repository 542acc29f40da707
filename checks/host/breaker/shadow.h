/*
 * A range of memory that is offered, and beside it a shadow: what each byte of the range must be, where each page is, and how it is
 * protected. Each page belongs to one thread at a time, and so does its part of the shadow.
 */
#ifndef BREAKER_SHADOW_H
#define BREAKER_SHADOW_H

#include <stdbool.h>
#include <stddef.h>
#include <stdint.h>

enum { PAGE = 4096, WORDS = PAGE / 8, CONTENTS = 24 };

/* Where a page is. */
enum place {
    GONE, /* nowhere: it was unmapped */
    HERE, /* in the range */
    AWAY  /* beside the range, where mremap has put it */
};

struct page {
    enum place place;
    int protection;
    bool is_locked;
    bool has_child;   /* a child of a fork has it (no MADV_DONTFORK) */
    bool is_unsure;   /* or not: MADV_DOFORK was refused, perhaps after it was said of some pages */
    bool is_wiped;    /* and finds zeros there (MADV_WIPEONFORK) */
    bool may_be_zero; /* it is what the shadow says, or zeros (MADV_FREE) */
    bool is_pinned;   /* a device has pinned the memory that it has now */
    const char *last; /* the last call that concerned it */
};

/* Pages in a row. */
struct run {
    size_t first, count;
};

struct shadow {
    size_t count;
    uint8_t *range, *away, *bytes;
    struct page *pages;
};
extern struct shadow shadow;

/* Takes memory for so many pages. Returns false, with errno, where there is none. No page of the range is there yet. */
bool shadow_make(size_t pages);

/* A number below `below`, by a generator whose state begins as any number. */
uint64_t draw(uint64_t *seed, uint64_t below);

/* Where a page of the range is now; not for one that is gone. */
uint8_t *page_at(size_t page);
/* What it must be. */
uint8_t *page_wanted(size_t page);
bool page_is_readable(size_t page);
bool page_is_writable(size_t page);

/* The longest run from a page on, of at most `most` pages, whose pages are in the same place, protected, locked and pinned alike. */
struct run run_alike(size_t first, size_t most);
/* Notes the call that is made of pages. */
void run_note(struct run run, const char *call);
/* Pages are zeros from now on, and what a device had pinned isn't theirs any more. */
void run_is_zero(struct run run);
/* Pages are new: zeros in the range, readable and writable. */
void run_is_new(struct run run);
void run_is_gone(struct run run);

/* Fills a page with one of the contents that other processes have, too. 0: zeros. */
void content_fill(uint8_t *page, uint64_t content);

/* Compares pages with the shadow, those that can be read. */
void run_check(struct run run, const char *when);
/* A page that may be zeros is one or the other from now on. */
void page_settle(size_t page);
/* Compares bytes with what they must be, and counts what is wrong. */
void bytes_check(size_t page, const uint8_t *found, const uint8_t *wanted, const char *when);
/* Counts something that is wrong, and prints the first ones. */
void note_wrong(size_t page, const char *what);
unsigned long wrong_count(void);

#endif
