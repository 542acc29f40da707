#define _GNU_SOURCE
#include "calls.h"
#include <stdio.h>
#include <string.h>
#include <sys/mman.h>
#include <sys/wait.h>
#include <time.h>
#include <unistd.h>

enum { CHILDREN_MOST = 3, CHILD_SECONDS = 60 };
static pid_t children[CHILDREN_MOST];
static const uint8_t zeros[PAGE];

static bool is_mapped(const uint8_t *page) {
    unsigned char there;
    return mincore((void *)(uintptr_t)page, PAGE, &there) == 0;
}

/* What a child has of the range. */
static void compare(const char *when) {
    for (size_t page = 0; page < shadow.count; page++) {
        const struct page *its = &shadow.pages[page];
        if (its->place == GONE) continue;
        bool has = is_mapped(page_at(page));
        if (has != its->has_child && !its->is_unsure)
            note_wrong(page, has ? "a child has a page in spite of MADV_DONTFORK" : "a child lacks a page");
        if (!has || !page_is_readable(page)) continue;
        bool is_zero = its->is_wiped || (its->may_be_zero && memcmp(page_at(page), zeros, PAGE) == 0);
        bytes_check(page, page_at(page), is_zero ? zeros : page_wanted(page), when);
    }
}

/* A child discards what it has, and finds zeros. */
static void discard(void) {
    for (size_t page = 0; page < shadow.count; page++) {
        const struct page *its = &shadow.pages[page];
        if (its->place == GONE || !is_mapped(page_at(page)) || !page_is_readable(page)) continue;
        if (madvise(page_at(page), PAGE, MADV_DONTNEED_LOCKED) != 0) continue;
        bytes_check(page, page_at(page), zeros, "discarded in a child");
    }
}

/* (Other threads of the parent may have held locks of the C library: only calls of the system are made.) */
static void live(void) {
    const struct timespec pause = {.tv_nsec = 300000000};
    unsigned long before = wrong_count();
    alarm(CHILD_SECONDS);
    compare("in a child");
    nanosleep(&pause, NULL);
    compare("in a child, later");
    uint8_t *own = mmap(NULL, 64 * PAGE, PROT_READ | PROT_WRITE, MAP_PRIVATE | MAP_ANONYMOUS, -1, 0);
    if (own != MAP_FAILED) {
        madvise(own, 64 * PAGE, MADV_MERGEABLE);
        madvise(own, PAGE, MADV_DONTNEED);
        munmap(own, 64 * PAGE);
    }
    discard();
    _exit(wrong_count() == before ? 0 : 1);
}

void call_fork(struct caller *caller) {
    const struct run all = {0, shadow.count};
    size_t free_place = 0;
    while (free_place < CHILDREN_MOST && children[free_place] != 0) free_place++;
    if (free_place == CHILDREN_MOST) return;
    atomic_store(&caller->now_count, all.count);
    atomic_store(&caller->now, "fork");
    fflush(stdout);
    pid_t child = fork();
    if (child == 0) live();
    if (child > 0) children[free_place] = child;
    atomic_store(&caller->now, NULL);
    atomic_fetch_add(&caller->calls, 1);
}

void children_reap(bool all) {
    for (size_t i = 0; i < CHILDREN_MOST; i++) {
        int status = 0;
        if (children[i] == 0 || waitpid(children[i], &status, all ? 0 : WNOHANG) != children[i]) continue;
        children[i] = 0;
        if (WIFSIGNALED(status)) printf("a child ended by signal %d\n", WTERMSIG(status));
        if (status != 0) note_wrong(0, "a child found something wrong");
    }
}
