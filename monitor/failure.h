/* How the programs here report a failure. */
#ifndef MONITOR_FAILURE_H
#define MONITOR_FAILURE_H

#include <stdbool.h>
#include <stdio.h>

/* Prints what failed on standard error, and the cause that errno has. Returns false. */
static inline bool trouble(const char *what) {
    perror(what);
    return false;
}

#endif
