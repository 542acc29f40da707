/* What the tests of windows have in common: checks, draws, and the reads and writes of a window's users. */
#ifndef PAGESHARE_WINDOW_CHECK_H
#define PAGESHARE_WINDOW_CHECK_H

#include "../window.h"
#include <stdatomic.h>
#include <stdint.h>
#include <stdio.h>
#include <stdlib.h>
#include <string.h>

static atomic_uint checks_failed;

static inline unsigned check_count(void) { return atomic_load(&checks_failed); }

static inline void check(bool is_so, const char *what) {
    if (is_so) return;
    if (atomic_fetch_add(&checks_failed, 1) < 20) fprintf(stderr, "not so: %s\n", what);
}

/* A call that has to come out well. */
static inline void must(struct window_result result, const char *what) {
    if (result.status == WINDOW_OK) return;
    fprintf(stderr, "%s: %s: %s\n", what, window_status_words(result.status), strerror(result.cause));
    check(false, what);
}

/* A number below `below`, by a generator whose state begins as any number. */
static inline uint64_t draw(uint64_t *state, uint64_t below) {
    *state = *state * 6364136223846793005u + 1442695040888963407u;
    return (*state >> 33) % below;
}

/* A guest's load and store: no sanitizer sees a guest's, and the kernel orders them with those of windows. */
__attribute__((no_sanitize_thread, noinline, unused)) static uint64_t guest_load(const volatile uint64_t *at) { return *at; }
__attribute__((no_sanitize_thread, noinline, unused)) static void guest_store(volatile uint64_t *at, uint64_t value) {
    *at = value;
}

#endif
