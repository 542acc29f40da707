/*
 * `pageshare-host --check`: what this computer has of all that sharing needs, a line each, and then a trial of sharing. It needs no host
 * and no guest, and leaves nothing behind.
 */
#ifndef HOST_CHECK_H
#define HOST_CHECK_H

#include <stdbool.h>
#include <stddef.h>

enum { CHECK_SECONDS = 20, CHECK_SECONDS_MOST = 86400, CHECK_PATH_MOST = 512 };

/* Prints the lines and what came of a trial of so many seconds. Returns the process's status: 0 where the trial was right, else 1. */
int check_show(unsigned seconds);

/* How a line begins. */
enum finding {
    FOUND_GOOD,
    FOUND_NOTE,   /* it works, and here is what to know */
    FOUND_BAD,    /* something isn't shared for it */
    FOUND_UNKNOWN /* this user, or this system, doesn't show it */
};
/* Prints a line, and below it the command that mends what it says, which is NULL where there is none. */
__attribute__((format(printf, 4, 5))) void check_say(enum finding finding, const char *what, const char *mend, const char *form,
                                                     ...);
/* What is said where a file can't be read: its path and the cause that errno has. */
void check_say_unread(const char *what, const char *path);

/* The first line of a file that begins so, without its end. Returns false, with errno, if there is none (ENODATA) or it can't be read. */
bool check_line(const char *path, const char *begin, char *line, size_t room);
/* The number behind these words in the line of a file that begins with them. Returns false as check_line does. */
bool check_number(const char *path, const char *begin, long long *number);

/* The lines: of the kernel, of its settings, and of what is installed. */
void check_kernel(void);
void check_settings(void);
void check_installed(void);

/* Where the library lies that monitors preload: beside this program, or where it is installed. Returns false if it is nowhere. */
bool check_find_library(char path[CHECK_PATH_MOST]);

#endif
