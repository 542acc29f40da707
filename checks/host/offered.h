/* What the programs of this folder that stand in for a monitor have in common: memory that is offered, and the library's counts. */
#ifndef CHECKS_OFFERED_H
#define CHECKS_OFFERED_H

#include <stdbool.h>
#include <stdint.h>
#include <stdio.h>
#include <stdlib.h>
#include <string.h>
#include <sys/mman.h>
#include <unistd.h>

/* A count of the library's, from the file that PAGESHARE_COUNTS names; -1: none. */
static inline long library_count(const char *name) {
    const char *path = getenv("PAGESHARE_COUNTS");
    char text[4096] = "", key[64];
    FILE *file = path ? fopen(path, "r") : NULL;
    if (file == NULL) return -1;
    text[fread(text, 1, sizeof text - 1, file)] = 0;
    fclose(file);
    snprintf(key, sizeof key, "\"%s\":", name);
    const char *at = strstr(text, key);
    return at ? atol(at + strlen(key)) : -1;
}

/* Waits at most some seconds until a count is so much or more. Returns whether it is. */
static inline bool wait_for_count(const char *name, long least, unsigned seconds) {
    for (unsigned i = 0; i < seconds * 50 && library_count(name) < least; i++) usleep(20000);
    return library_count(name) >= least;
}

#endif
