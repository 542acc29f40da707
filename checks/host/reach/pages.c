#define _GNU_SOURCE
#include "pages.h"
#include <errno.h>
#include <stdatomic.h>
#include <stdio.h>
#include <stdlib.h>
#include <string.h>
#include <sys/mman.h>

enum { PRINTED_MOST = 10 };

struct pages pages;
static atomic_ulong wrong;

uint64_t draw(uint64_t *seed, uint64_t below) {
    *seed = *seed * 6364136223846793005u + 1442695040888963407u;
    return (*seed >> 33) % below;
}

uint8_t *page_at(size_t page) { return pages.at + page * PAGE; }

size_t bytes_of(struct run run) { return run.count * PAGE; }

static uint64_t *words_of(size_t page) { return (uint64_t *)(void *)page_at(page); }

static uint64_t word_of(uint64_t content) { return content * 0x0101010101010101u; }

void content_fill(uint8_t *page, uint64_t content) {
    const uint64_t word = word_of(content);
    for (size_t i = 0; i < WORDS; i++) memcpy(page + i * sizeof word, &word, sizeof word);
}

void pages_are(struct run run, uint64_t content) {
    for (size_t page = run.first; page < run.first + run.count; page++)
        pages.wants[page] = (struct want){.all = word_of(content), .one = word_of(content)};
}

void page_write(size_t page, uint64_t content) {
    content_fill(page_at(page), content);
    pages_are((struct run){page, 1}, content);
}

void page_write_word(size_t page, size_t at, uint64_t word) {
    struct want *want = &pages.wants[page];
    volatile uint64_t *words = words_of(page);
    words[want->at] = want->all;
    words[at] = word;
    *want = (struct want){.all = want->all, .one = word, .at = at};
}

bool pages_make(size_t count) {
    pages.count = count;
    pages.at = mmap(NULL, count * PAGE, PROT_READ | PROT_WRITE, MAP_PRIVATE | MAP_ANONYMOUS, -1, 0);
    pages.wants = calloc(count, sizeof *pages.wants);
    if (pages.at == MAP_FAILED || pages.wants == NULL) return false;
    for (size_t page = 0; page < count; page++) page_write(page, page / 2 % CONTENTS);
    return true;
}

void pages_offer(struct run run) {
    madvise(page_at(run.first), bytes_of(run), MADV_MERGEABLE);
    madvise(page_at(run.first), bytes_of(run), MADV_DONTFORK);
}

unsigned long wrong_count(void) { return atomic_load(&wrong); }

void note_wrong(size_t page, const char *what) {
    if (atomic_fetch_add(&wrong, 1) >= PRINTED_MOST) return;
    printf("WRONG page %zu: %s (%s)\n", page, what, strerror(errno));
    fflush(stdout);
}

void pages_check(struct run run, const char *when) {
    char text[160];
    for (size_t page = run.first; page < run.first + run.count; page++) {
        const volatile uint64_t *words = words_of(page);
        const struct want *want = &pages.wants[page];
        for (size_t i = 0; i < WORDS; i++) {
            const uint64_t found = words[i], wanted = i == want->at ? want->one : want->all;
            if (found == wanted) continue;
            snprintf(text, sizeof text, "%s: word %zu is %016lx, not %016lx", when, i, (unsigned long)found,
                     (unsigned long)wanted);
            note_wrong(page, text);
            break;
        }
    }
}
