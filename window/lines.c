#define _GNU_SOURCE
#include "lines.h"
#include <errno.h>
#include <fcntl.h>
#include <string.h>
#include <sys/syscall.h>
#include <unistd.h>

enum { ROOM = sizeof((struct lines *)0)->buffer - 1 /* for a line; a zero ends it */ };

void lines_of(struct lines *lines, int file) {
    lines->file = file;
    lines->cause = 0;
    lines->is_rest = false;
    lines->begin = lines->end = 0;
}

int lines_open(struct lines *lines, const char *path) {
    lines_of(lines, open(path, O_RDONLY | O_CLOEXEC));
    return lines->file < 0 ? errno : 0;
}

void lines_close(struct lines *lines) { close(lines->file); }

/* Reads more behind what is there. Returns false at the end of the file, or where it can't be read. */
static bool read_more(struct lines *lines) {
    size_t kept = lines->end - lines->begin;
    long got;
    memmove(lines->buffer, lines->buffer + lines->begin, kept);
    lines->begin = 0;
    lines->end = kept;
    /* (not by the C library's function, in which a thread may be cancelled) */
    do got = syscall(SYS_read, lines->file, lines->buffer + kept, ROOM - kept);
    while (got < 0 && errno == EINTR);
    if (got < 0) lines->cause = errno;
    if (got > 0) lines->end += (size_t)got;
    return got > 0;
}

/* The next line, or the part of one that fits into the buffer: then `*has_end` is false. */
static char *next_part(struct lines *lines, bool *has_end) {
    char *at, *stop;
    for (;;) {
        size_t bytes = lines->end - lines->begin;
        at = lines->buffer + lines->begin;
        stop = memchr(at, '\n', bytes);
        if (stop != NULL || bytes == ROOM || !read_more(lines)) break;
    }
    *has_end = stop != NULL;
    if (lines->cause != 0 || (stop == NULL && lines->begin == lines->end)) return NULL;
    at = lines->buffer + lines->begin;
    if (stop == NULL) stop = lines->buffer + lines->end;
    *stop = 0;
    lines->begin = *has_end ? (size_t)(stop - lines->buffer) + 1 : lines->end;
    return at;
}

char *lines_next(struct lines *lines) {
    for (;;) {
        bool has_end, is_rest = lines->is_rest;
        char *line = next_part(lines, &has_end);
        lines->is_rest = line != NULL && !has_end;
        if (line == NULL || !is_rest) return line;
    }
}
