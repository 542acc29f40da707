/*
 * A stand-in for a library that loses a write: preloaded before libpageshare-window.so, it puts some bytes of an offered page back to what
 * they were, a second after the page was offered and again and again after that.
 */
#define _GNU_SOURCE
#include <dlfcn.h>
#include <pthread.h>
#include <stdint.h>
#include <stdlib.h>
#include <string.h>
#include <sys/mman.h>
#include <unistd.h>

enum { EVERY_US = 100000, BYTES = 64, PAGES = 64, PAGE = 4096 };

static uint8_t *memory;
static uint8_t before[PAGES][BYTES];

static void *lose(void *unused) {
    for (size_t i = 0; i < PAGES; i++) memcpy(before[i], memory + i * PAGE, BYTES);
    for (;;) {
        usleep(EVERY_US);
        for (size_t i = 0; i < PAGES; i++) memcpy(memory + i * PAGE, before[i], BYTES);
    }
    return unused;
}

__attribute__((visibility("default"))) int madvise(void *at, size_t bytes, int advice) {
    int (*next)(void *, size_t, int);
    pthread_t thread;
    *(void **)&next = dlsym(RTLD_NEXT, "madvise");
    if (!next) abort();
    if (advice == MADV_MERGEABLE && bytes >= (size_t)PAGES * PAGE && !memory) {
        memory = at;
        if (pthread_create(&thread, NULL, lose, NULL) != 0) abort();
    }
    return next(at, bytes, advice);
}
