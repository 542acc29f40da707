#define _GNU_SOURCE
#include "shadow.h"
#include <stdatomic.h>
#include <stdio.h>
#include <stdlib.h>
#include <string.h>
#include <sys/mman.h>
#include <unistd.h>

/* Far from where the system puts what has no place of its own: a hole in the range stays one. */
static const uintptr_t range_at = 0x200000000000, away_at = 0x210000000000;
enum { PRINTED_MOST = 10 };

struct shadow shadow;
static const uint8_t zeros[PAGE];
static atomic_ulong wrong;

bool shadow_make(size_t pages) {
    const int rights = PROT_READ | PROT_WRITE, kind = MAP_PRIVATE | MAP_ANONYMOUS;
    shadow.count = pages;
    shadow.range = (uint8_t *)range_at;
    shadow.away = (uint8_t *)away_at;
    shadow.bytes = mmap(NULL, pages * PAGE, rights, kind, -1, 0);
    shadow.pages = calloc(pages, sizeof *shadow.pages);
    return shadow.bytes != MAP_FAILED && shadow.pages != NULL;
}

uint64_t draw(uint64_t *seed, uint64_t below) {
    *seed = *seed * 6364136223846793005u + 1442695040888963407u;
    return (*seed >> 33) % below;
}

uint8_t *page_at(size_t page) { return (shadow.pages[page].place == AWAY ? shadow.away : shadow.range) + page * PAGE; }

uint8_t *page_wanted(size_t page) { return shadow.bytes + page * PAGE; }

bool page_is_readable(size_t page) {
    return shadow.pages[page].place != GONE && (shadow.pages[page].protection & PROT_READ) != 0;
}

bool page_is_writable(size_t page) {
    return shadow.pages[page].place != GONE && (shadow.pages[page].protection & PROT_WRITE) != 0;
}

struct run run_alike(size_t first, size_t most) {
    const struct page *pages = shadow.pages + first;
    size_t count = 1;
    while (count < most && first + count < shadow.count && pages[count].place == pages->place &&
           pages[count].protection == pages->protection && pages[count].is_locked == pages->is_locked &&
           pages[count].is_pinned == pages->is_pinned)
        count++;
    return (struct run){first, count};
}

void run_note(struct run run, const char *call) {
    for (size_t page = run.first; page < run.first + run.count; page++) shadow.pages[page].last = call;
}

void run_is_zero(struct run run) {
    memset(page_wanted(run.first), 0, run.count * PAGE);
    for (size_t page = run.first; page < run.first + run.count; page++)
        shadow.pages[page].may_be_zero = shadow.pages[page].is_pinned = false;
}

void run_is_new(struct run run) {
    run_is_zero(run);
    for (size_t page = run.first; page < run.first + run.count; page++)
        shadow.pages[page] = (struct page){
            .place = HERE, .protection = PROT_READ | PROT_WRITE, .has_child = true, .last = shadow.pages[page].last};
}

void run_is_gone(struct run run) {
    for (size_t page = run.first; page < run.first + run.count; page++)
        shadow.pages[page] = (struct page){.place = GONE, .last = shadow.pages[page].last};
}

void content_fill(uint8_t *page, uint64_t content) {
    uint64_t words[WORDS];
    for (size_t i = 0; i < WORDS; i++) words[i] = content == 0 ? 0 : content * 0x0101010101010101u + i % 8;
    memcpy(page, words, PAGE);
}

unsigned long wrong_count(void) { return atomic_load(&wrong); }

void note_wrong(size_t page, const char *what) {
    const struct page *its = &shadow.pages[page];
    if (atomic_fetch_add(&wrong, 1) >= PRINTED_MOST) return;
    printf("WRONG page %zu (place %d, protection %d%s%s), last call %s: %s\n", page, its->place, its->protection,
           its->is_locked ? ", locked" : "", its->is_pinned ? ", pinned" : "", its->last ? its->last : "none", what);
    fflush(stdout);
}

void bytes_check(size_t page, const uint8_t *found, const uint8_t *wanted, const char *when) {
    char text[160];
    size_t byte = 0;
    if (memcmp(found, wanted, PAGE) == 0) return;
    while (byte < PAGE - 8 && memcmp(found + byte, wanted + byte, 8) == 0) byte += 8;
    uint64_t words[2];
    memcpy(&words[0], found + byte, 8);
    memcpy(&words[1], wanted + byte, 8);
    snprintf(text, sizeof text, "%s: byte %zu: %016lx, not %016lx", when, byte, (unsigned long)words[0], (unsigned long)words[1]);
    note_wrong(page, text);
}

void run_check(struct run run, const char *when) {
    for (size_t page = run.first; page < run.first + run.count; page++) {
        if (!page_is_readable(page)) continue;
        bool is_zero = shadow.pages[page].may_be_zero && memcmp(page_at(page), zeros, PAGE) == 0;
        bytes_check(page, page_at(page), is_zero ? zeros : page_wanted(page), when);
    }
}

void page_settle(size_t page) {
    struct page *its = &shadow.pages[page];
    if (!its->may_be_zero) return;
    __atomic_fetch_add((uint64_t *)(void *)page_at(page), 0, __ATOMIC_SEQ_CST); /* (what was written stays) */
    its->may_be_zero = false;
    if (memcmp(page_at(page), zeros, PAGE) == 0) memset(page_wanted(page), 0, PAGE);
    run_check((struct run){page, 1}, "after MADV_FREE");
}
