/*
 * window/lines.c beside a plain reading of the same bytes: lines of all lengths, from files and from pipes that get them in pieces; and what
 * can't be read. Prints what isn't so, and "lines: good" (status 0) or "lines: WRONG" (1).
 */
#define _GNU_SOURCE
#include "lines.h"
#include <errno.h>
#include <fcntl.h>
#include <sched.h>
#include <stdint.h>
#include <stdio.h>
#include <stdlib.h>
#include <string.h>
#include <sys/mman.h>
#include <sys/wait.h>
#include <unistd.h>

enum { MOST = sizeof((struct lines *)0)->buffer - 1, BYTES = 40000, ROUNDS = 3000 };

static unsigned wrong;
static uint64_t state = 1;

static void check(bool is_so, const char *what) {
    if (!is_so) printf("not so: %s\n", what), wrong++;
}

static size_t draw(size_t below) {
    state = state * UINT64_C(6364136223846793005) + 1442695040888963407u;
    return (size_t)(state >> 33) % below;
}

/* Whether the lines of `text` are what comes of a file. */
static bool is_read(struct lines *lines, const char *text, size_t bytes) {
    for (size_t at = 0, next; at < bytes; at = next) {
        const char *stop = memchr(text + at, '\n', bytes - at), *line = lines_next(lines);
        size_t length = stop ? (size_t)(stop - text) - at : bytes - at, kept = length < MOST ? length : MOST;
        next = at + length + 1;
        if (line == NULL || strlen(line) != kept || memcmp(line, text + at, kept) != 0) return false;
    }
    return lines_next(lines) == NULL && lines_next(lines) == NULL && lines->cause == 0;
}

/* A text of lines, most of them short, and some about as long as the buffer. Returns its length. */
static size_t make_text(char *text) {
    size_t bytes = draw(BYTES), mean = 1 + draw(200), at = 0;
    for (size_t i = 0; i < bytes; i++) text[i] = (char)('a' + draw(26));
    while (at < bytes) {
        at += draw(8) == 0 ? MOST - 3 + draw(8) : draw(2 * mean);
        if (at < bytes) text[at++] = '\n';
    }
    return bytes;
}

static void from_files(void) {
    static char text[BYTES];
    struct lines lines;
    int file = memfd_create("text", MFD_CLOEXEC);
    unsigned differing = 0;
    for (unsigned i = 0; i < ROUNDS; i++) {
        size_t bytes = make_text(text);
        if (ftruncate(file, 0) != 0 || pwrite(file, text, bytes, 0) != (ssize_t)bytes || lseek(file, 0, SEEK_SET) != 0) exit(2);
        lines_of(&lines, file);
        differing += !is_read(&lines, text, bytes);
    }
    close(file);
    check(differing == 0, "each file is read as it is");
}

static void write_pieces(int to, const char *text, size_t bytes) {
    for (size_t at = 0, some; at < bytes; at += some) {
        some = 1 + draw(bytes / 50 + 10);
        if (some > bytes - at) some = bytes - at;
        if (write(to, text + at, some) != (ssize_t)some) _exit(2);
        sched_yield();
    }
}

/* A pipe gives what is there, which may end within a line. */
static void from_pipes(void) {
    static char text[BYTES];
    struct lines lines;
    unsigned differing = 0;
    for (unsigned i = 0; i < ROUNDS / 10; i++) {
        int ends[2], status = 0;
        size_t bytes = make_text(text);
        if (pipe2(ends, O_CLOEXEC) != 0) exit(2);
        pid_t child = fork();
        if (child == 0) write_pieces(ends[1], text, bytes), _exit(0);
        close(ends[1]);
        lines_of(&lines, ends[0]);
        differing += !is_read(&lines, text, bytes);
        close(ends[0]);
        if (child < 0 || waitpid(child, &status, 0) != child || status != 0) exit(2);
    }
    check(differing == 0, "each pipe is read as it is");
}

static void unreadable(void) {
    struct lines lines;
    check(lines_open(&lines, "/not-there") == ENOENT, "there is no such file");
    check(lines_open(&lines, "/") == 0 && lines_next(&lines) == NULL && lines.cause == EISDIR, "a folder has no lines");
    check(lines_next(&lines) == NULL, "and no further ones");
    lines_close(&lines);
    check(lines_open(&lines, "/proc/self/status") == 0 && strncmp(lines_next(&lines), "Name:", 5) == 0, "a file of the system");
    lines_close(&lines);
}

int main(void) {
    from_files();
    from_pipes();
    unreadable();
    printf("lines: %s\n", wrong > 0 ? "WRONG" : "good");
    return wrong > 0;
}
