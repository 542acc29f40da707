/*
 * The frames' file gets no memory: its pages are those of a file system of 1 MiB. Nothing is lent that has no frame, the process goes
 * on, and no byte is lost. Takes root. Prints "full: ok" (status 0) or what isn't so (status 1).
 *
 * Linked with -Wl,--wrap for memfd_create and fcntl.
 */
#define _GNU_SOURCE
#include "fixture.h"
#include <sched.h>
#include <stdarg.h>
#include <sys/mount.h>

enum { PAGES = 1024 };

static const char *const directory = "/tmp";

/* (the file of frames alone: what the lender sets aside has memory) */
int __real_memfd_create(const char *name, unsigned flags);
int __wrap_memfd_create(const char *name, unsigned flags);
int __wrap_memfd_create(const char *name, unsigned flags) {
    char path[64];
    if (strcmp(name, "frames") != 0) return __real_memfd_create(name, flags);
    snprintf(path, sizeof path, "%s/%s", directory, name);
    return open(path, O_RDWR | O_CREAT | O_TRUNC | O_CLOEXEC, 0600);
}

/* The file has seals as far as anyone asks. */
int __real_fcntl(int fd, int command, ...);
int __wrap_fcntl(int fd, int command, ...);
int __wrap_fcntl(int fd, int command, ...) {
    va_list rest;
    va_start(rest, command);
    long with = va_arg(rest, long);
    va_end(rest);
    if (command == F_GET_SEALS) return F_SEAL_SHRINK;
    return command == F_ADD_SEALS ? 0 : __real_fcntl(fd, command, with);
}

static bool make_file_system(void) {
    return unshare(CLONE_NEWNS) == 0 && mount(NULL, "/", NULL, MS_REC | MS_PRIVATE, NULL) == 0 &&
           mount("small", directory, "tmpfs", 0, "size=1m") == 0;
}

int main(void) {
    const struct windows_config config = {.pins = WINDOWS_PINS_NEVER};
    if (!make_file_system()) {
        puts("left out: a file of frames without memory, since this user can't mount a file system");
        return 0;
    }
    FIXTURE(&config, PAGES, PAGES);
    struct pageshare_domain_totals totals;
    struct lender_counts counts;
    for (uint32_t i = 0; i < PAGES; i++) memcpy(at + (size_t)i * PAGE, &(uint32_t){i / 2 + 1}, 4);
    look_often(&fixture, 20);
    lender_count(fixture.lender, &totals, &counts);
    check(counts.no_memory > 0 && totals.frames > 0 && totals.frames <= 256, "frames are lent up to the file's memory");
    for (uint32_t i = 0; i < PAGES; i++) {
        uint32_t found;
        memcpy(&found, at + (size_t)i * PAGE, 4);
        check(found == i / 2 + 1, "each page reads as before");
    }
    must(window_discard(window, 0, PAGES / 2), "window_discard");
    look_often(&fixture, 2);
    check(lender_trim(fixture.lender) == 0, "free frames are given back");
    look_often(&fixture, 20);
    lender_count(fixture.lender, &totals, &counts);
    check(totals.frames > 128, "and then others are lent");
    fixture_end(&fixture, window);
    puts(check_count() == 0 ? "full: ok" : "full: WRONG");
    return check_count() == 0 ? 0 : 1;
}
