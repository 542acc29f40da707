/*
 * The bytes of pages that somebody may write meanwhile. Each word is read once; a page that changes under a reader reads as a mixture
 * of what it was and what it becomes.
 */
#ifndef PAGESHARE_WINDOW_BYTES_H
#define PAGESHARE_WINDOW_BYTES_H

#include "lender.h"

enum { WORDS = WINDOW_PAGE_BYTES / sizeof(uint64_t) };

static inline uint64_t word_of(const uint8_t *page, size_t word) {
    return __atomic_load_n((const uint64_t *)(const void *)page + word, __ATOMIC_RELAXED);
}

static inline void copy_page(unsigned char *to, const uint8_t *page) {
    uint64_t *words = (uint64_t *)(void *)to;
    for (size_t i = 0; i < WORDS; i++) words[i] = word_of(page, i);
}

static inline bool are_equal(const uint8_t *page, const uint8_t *frame) {
    for (size_t i = 0; i < WORDS; i++)
        if (word_of(page, i) != word_of(frame, i)) return false;
    return true;
}

static inline bool is_zero(const uint8_t *page) {
    for (size_t i = 0; i < WORDS; i++)
        if (word_of(page, i) != 0) return false;
    return true;
}

/* The product of two words, 128 bits of it, as one word: its halves joined by xor. */
static inline uint64_t folded_product(uint64_t one, uint64_t other) {
    __extension__ unsigned __int128 product = (unsigned __int128)one * other;
    return (uint64_t)product ^ (uint64_t)(product >> 64);
}

/*
 * A guess whether pages are equal: 64 bits of the page under a salt. The host computes the same of the pages that are lent, by
 * pageshare_host_fingerprint; FORMATS has it in words. Meanwhile the page that is read next comes nearer: the product waits for itself, and memory
 * would stand still.
 */
static inline uint64_t fingerprint_and_fetch(uint32_t salt, const uint8_t *page, const uint8_t *next) {
    enum { LINE = 8 /* words */ };
    const uint64_t start = 0x243f6a8885a308d3u, odd = 0x9e3779b97f4a7c15u;
    uint64_t state = folded_product(start ^ (salt | (uint64_t)salt << 32), odd ^ 8) + WINDOW_PAGE_BYTES;
    for (size_t line = 0; line < WORDS; line += LINE) {
        __builtin_prefetch(next + line * sizeof(uint64_t));
        for (size_t i = line; i < line + LINE; i += 2)
            state = folded_product(word_of(page, i) ^ state, word_of(page, i + 1) ^ odd);
    }
    return state;
}

static inline uint64_t fingerprint_of(uint32_t salt, const uint8_t *page) { return fingerprint_and_fetch(salt, page, page); }

/* A glance at a page: some bits of 64 bytes in a row, whose place follows from the page's fingerprint. Much cheaper than reading it. */
enum { GLANCE_WORDS = 8, GLANCE_BITS = 15 };

static inline size_t glance_place(uint64_t fingerprint) { return fingerprint % (WORDS / GLANCE_WORDS) * GLANCE_WORDS; }

static inline uint32_t glance_at(uint64_t fingerprint, const uint8_t *page) {
    size_t place = glance_place(fingerprint);
    uint64_t state = fingerprint;
    for (size_t i = 0; i < GLANCE_WORDS; i += 2)
        state = folded_product(word_of(page, place + i) ^ state, word_of(page, place + i + 1) ^ 0x9e3779b97f4a7c15u);
    return (uint32_t)(state >> (64 - GLANCE_BITS));
}

#endif
