/*
 * A stand-in for a monitor, to be run under libpageshare-window.so: threads write, check, discard and move pages of one window all the
 * time, while children are forked, and it says how many words were wrong. Words: SECONDS MIB THREADS [close|raw] [fewer]
 *
 * close: after a third of the time it closes all descriptors from 3 on, as monitors do that don't know who opened them; raw: by an
 * instruction of its own, which the library doesn't see. fewer: parts of the window are unmapped, protected and locked, too, so that they leave it.
 */
#define _GNU_SOURCE
#include "instruction.h"
#include <pthread.h>
#include <stdatomic.h>
#include <stdbool.h>
#include <stdint.h>
#include <stdio.h>
#include <stdlib.h>
#include <string.h>
#include <sys/mman.h>
#include <sys/syscall.h>
#include <sys/wait.h>
#include <unistd.h>

enum { PAGE = 4096, WORDS = PAGE / 8, THREADS_MOST = 16, KEPT_MOST = 1024 };

/* What a page holds: one word at one place, another everywhere else. */
struct want {
    uint64_t all, one;
    uint32_t at;
};

static uint64_t *memory;
static size_t pages;
static uint64_t threads;
static atomic_bool over;
static atomic_ulong wrong, rounds, discards;
static struct want *wants;

static void check(size_t page) {
    const uint64_t *words = memory + page * WORDS;
    const struct want *want = &wants[page];
    for (uint32_t i = 0; i < WORDS; i++) {
        uint64_t wanted = i == want->at ? want->one : want->all;
        if (words[i] == wanted) continue;
        if (atomic_fetch_add(&wrong, 1) < 10) printf("WRONG page %zu word %u: %lx, not %lx\n", page, i, words[i], wanted);
        return;
    }
}

static void change(size_t page, uint64_t drawn) {
    uint64_t *words = memory + page * WORDS;
    struct want *want = &wants[page];
    if (drawn % 16 == 0) {
        if (madvise(words, PAGE, MADV_DONTNEED) != 0) perror("madvise");
        *want = (struct want){0, 0, 0};
        atomic_fetch_add(&discards, 1);
    } else if (drawn % 16 < 8) {
        words[want->at] = want->all;
        want->at = (uint32_t)(drawn >> 8) % WORDS;
        words[want->at] = want->one = drawn >> 20 & 3;
    } else {
        want->all = want->one = drawn >> 24 & 7;
        for (uint32_t i = 0; i < WORDS; i++) words[i] = want->all;
    }
}

static void *work(void *of) {
    uint64_t me = (uint64_t)(uintptr_t)of, seed = me * 77 + (uint64_t)getpid();
    while (!atomic_load(&over)) {
        seed = seed * 6364136223846793005u + 1442695040888963407u;
        size_t page = (size_t)((seed >> 20) % (pages / threads) * threads + me);
        check(page);
        change(page, seed >> 33);
        if (atomic_fetch_add(&rounds, 1) % 64 == 0) usleep(200);
    }
    return NULL;
}

/* Parts of the last pages, which no thread uses, leave the window, in all ways that there are. */
static void leave_in_part(uint8_t *end, unsigned second) {
    uint8_t *at = end - (size_t)(second % KEPT_MOST + 1) * PAGE;
    switch (second % 5) {
    case 0: munmap(at, PAGE); break;
    case 1: mprotect(at, PAGE, PROT_READ); break;
    case 2: mlock(at, PAGE); break;
    case 3: mmap(at, PAGE, PROT_READ | PROT_WRITE, MAP_PRIVATE | MAP_ANONYMOUS | MAP_FIXED, -1, 0); break;
    default: mremap(at, PAGE, PAGE, MREMAP_MAYMOVE | MREMAP_FIXED, end + 4 * PAGE); break;
    }
}

int main(int count, char **words) {
    pthread_t ids[THREADS_MOST];
    if (count < 4) return 2;
    unsigned seconds = (unsigned)atoi(words[1]);
    bool closes = false, raw = false, fewer = false;
    for (int i = 4; i < count; i++) {
        closes |= strcmp(words[i], "close") == 0;
        raw |= strcmp(words[i], "raw") == 0;
        fewer |= strcmp(words[i], "fewer") == 0;
    }
    size_t all = (size_t)atoi(words[2]) * 256;
    threads = (uint64_t)atoi(words[3]) % (THREADS_MOST + 1);
    pages = all - KEPT_MOST;
    uint8_t *area = mmap(NULL, (all + 8) * PAGE, PROT_READ | PROT_WRITE, MAP_PRIVATE | MAP_ANONYMOUS, -1, 0);
    wants = calloc(all, sizeof *wants);
    if (area == MAP_FAILED || !wants || !threads) return 2;
    memory = (uint64_t *)(void *)area;
    madvise(area, all * PAGE, MADV_MERGEABLE);
    madvise(area, all * PAGE, MADV_DONTFORK);
    for (uint64_t i = 0; i < threads; i++)
        if (pthread_create(&ids[i], NULL, work, (void *)(uintptr_t)i) != 0) return 2;
    for (unsigned second = 0; second < seconds; second++) {
        sleep(1);
        if (closes && second == seconds / 3) close_range(3, ~0u, 0);
        if (raw && second == seconds / 3) by_instruction(SYS_close_range, 3, ~0u, 0);
        if (fewer) leave_in_part(area + all * PAGE, second);
        pid_t child = fork();
        if (child == 0) _exit(0);
        if (child > 0) waitpid(child, NULL, 0);
    }
    atomic_store(&over, true);
    for (uint64_t i = 0; i < threads; i++) pthread_join(ids[i], NULL);
    for (size_t page = 0; page < pages; page++) check(page);
    printf("rounds %lu discards %lu wrong %lu\n", atomic_load(&rounds), atomic_load(&discards), atomic_load(&wrong));
    return atomic_load(&wrong) != 0;
}
