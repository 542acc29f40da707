/*
 * A text file of the system that is read line by line, without malloc. It may be read while locks are held: another thread may be in the
 * process's malloc, and wait there for one of them.
 */
#ifndef PAGESHARE_WINDOW_LINES_H
#define PAGESHARE_WINDOW_LINES_H

#include <stdbool.h>
#include <stddef.h>

struct lines {
    int file;
    int cause;    /* the errno that a read failed with, or 0 */
    bool is_rest; /* what comes next is the rest of a line that was cut */
    size_t begin, end;
    char buffer[4096];
};

/* Opens a file. Returns 0 or an errno; then it isn't open. */
int lines_open(struct lines *lines, const char *path);
/* Reads an open file from where it is. It isn't to be closed by lines_close. */
void lines_of(struct lines *lines, int file);
/*
 * The next line, without its newline; it stays until the next call. NULL at the end of the file, or where it can't be read any further. A
 * line that is longer than the buffer is cut.
 */
char *lines_next(struct lines *lines);
void lines_close(struct lines *lines);

#endif
