/*
 * The price of the first write to a page that others share: 8,192 pages in mixed order, each of which is equal to another one. Words:
 * lent|merged|own SECONDS. Under libpageshare-window.so pages become lent (it waits until PAGESHARE_COUNTS says so); under the kernel's
 * KSM merged; own: neither, pages that were written before. Prints the median, the mean and the 99th percentile in microseconds.
 */
#define _GNU_SOURCE
#include <stdint.h>
#include <stdio.h>
#include <stdlib.h>
#include <string.h>
#include <sys/mman.h>
#include <time.h>
#include <unistd.h>

enum { PAGE = 4096, PAGES = 8192 };

static uint64_t now_ns(void) {
    struct timespec t;
    clock_gettime(CLOCK_MONOTONIC, &t);
    return (uint64_t)t.tv_sec * 1000000000u + (uint64_t)t.tv_nsec;
}

static int by_size(const void *left, const void *right) {
    uint64_t a = *(const uint64_t *)left, b = *(const uint64_t *)right;
    return (a > b) - (a < b);
}

/* The number behind a word in a file, or 0. */
static unsigned long number_in(const char *path, const char *word) {
    char text[65536];
    FILE *file = path ? fopen(path, "r") : NULL;
    if (!file) return 0;
    unsigned long most = 0;
    while (fgets(text, sizeof text, file)) {
        const char *at = strstr(text, word);
        unsigned long got = at ? strtoul(at + strlen(word), NULL, 10) : 0;
        most = got > most ? got : most;
    }
    fclose(file);
    return most;
}

int main(int count, char **words) {
    static uint64_t took[PAGES];
    static uint32_t order[PAGES];
    if (count < 3) return 2;
    uint8_t *area = mmap(NULL, (size_t)PAGES * PAGE, PROT_READ | PROT_WRITE, MAP_PRIVATE | MAP_ANONYMOUS, -1, 0);
    if (area == MAP_FAILED) return 2;
    for (uint32_t i = 0; i < PAGES; i++) {
        uint64_t *page = (uint64_t *)(void *)(area + (size_t)i * PAGE);
        for (uint32_t word = 0; word < PAGE / 8; word++) page[word] = (i / 2 + 1) * 0x9e3779b97f4a7c15u + word;
    }
    madvise(area, (size_t)PAGES * PAGE, MADV_MERGEABLE);
    madvise(area, (size_t)PAGES * PAGE, MADV_DONTFORK);
    unsigned long reached = 0;
    for (int second = 0; second < atoi(words[2]) && reached < PAGES - 64; second++) {
        if (strcmp(words[1], "own") == 0) break;
        sleep(1);
        reached = strcmp(words[1], "lent") == 0 ? number_in(getenv("PAGESHARE_COUNTS"), "\"lent\":") : number_in("/proc/self/smaps", "KSM:") / 4;
    }
    uint64_t seed = 7, sum = 0;
    for (uint32_t i = 0; i < PAGES; i++) order[i] = i;
    for (uint32_t i = PAGES - 1; i > 0; i--) {
        seed = seed * 6364136223846793005u + 1442695040888963407u;
        uint32_t other = (uint32_t)((seed >> 33) % (i + 1)), kept = order[i];
        order[i] = order[other], order[other] = kept;
    }
    for (uint32_t i = 0; i < PAGES; i++) {
        volatile uint8_t *byte = area + (size_t)order[i] * PAGE + 64;
        uint8_t value = *byte; /* it was read before */
        uint64_t begin = now_ns();
        *byte = (uint8_t)(value + 1);
        took[i] = now_ns() - begin;
        sum += took[i];
    }
    qsort(took, PAGES, sizeof *took, by_size);
    printf("%s shared %lu median_us %.2f mean_us %.2f p99_us %.2f\n", words[1], reached, (double)took[PAGES / 2] / 1000,
           (double)sum / PAGES / 1000, (double)took[PAGES * 99 / 100] / 1000);
    return 0;
}
