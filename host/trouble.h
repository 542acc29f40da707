/* How the host and the preloaded library report a failure, and clocks. */
#ifndef HOST_TROUBLE_H
#define HOST_TROUBLE_H

#include <errno.h>
#include <stdarg.h>
#include <stdbool.h>
#include <stdint.h>
#include <stdio.h>
#include <stdlib.h>
#include <string.h>
#include <sys/stat.h>
#include <sys/syscall.h>
#include <time.h>
#include <unistd.h>

enum { PAGE = 4096, NOTHING = -1 };

/* How urgent a line is, as syslog(3) counts. */
enum urgency { LOG_LINE_WARNING = 4, LOG_LINE_NOTE = 6 };

/* Whether standard error is systemd's journal, which takes "<4>" in front of a line for its urgency. */
static inline bool log_is_journal(void) {
    const char *said = getenv("JOURNAL_STREAM");
    unsigned long long device, inode;
    struct stat facts;
    return said && sscanf(said, "%llu:%llu", &device, &inode) == 2 && fstat(STDERR_FILENO, &facts) == 0 &&
           facts.st_dev == device && facts.st_ino == inode;
}

/*
 * Writes one line on standard error. It doesn't go by stdio: a thread of the monitor that has the lock of stderr may wait for a lock that the
 * caller has. Nor does it by `write`, where a thread can be cancelled.
 */
static inline void log_words(enum urgency urgency, const char *form, va_list words) {
    char line[512] = "";
    if (log_is_journal()) snprintf(line, sizeof line, "<%d>", (int)urgency);
    strcat(line, "pageshare: ");
    const size_t begin = strlen(line), most = sizeof line - begin - 1;
    int length = vsnprintf(line + begin, most, form, words);
    size_t used = begin + (length < 0 ? 0 : (size_t)length < most ? (size_t)length : most - 1);
    line[used++] = '\n';
    syscall(SYS_write, STDERR_FILENO, line, used);
}

/* A line of something that is wrong. */
__attribute__((format(printf, 1, 2))) static inline void log_line(const char *form, ...) {
    va_list words;
    va_start(words, form);
    log_words(LOG_LINE_WARNING, form, words);
    va_end(words);
}

/* A line of something that is as it should be. */
__attribute__((format(printf, 1, 2))) static inline void log_note(const char *form, ...) {
    va_list words;
    va_start(words, form);
    log_words(LOG_LINE_NOTE, form, words);
    va_end(words);
}

/* The same, with the cause that errno has. Returns false. */
static inline bool trouble(const char *what) {
    log_line("%s: %s", what, strerror(errno));
    return false;
}

/* Nanoseconds of a clock. */
static inline uint64_t clock_ns(clockid_t clock) {
    struct timespec t;
    if (clock_gettime(clock, &t) != 0) return 0;
    return (uint64_t)t.tv_sec * 1000000000u + (uint64_t)t.tv_nsec;
}

static inline uint64_t now_ns(void) { return clock_ns(CLOCK_MONOTONIC); }

#endif
