/* What the tests in C have in common: a condition that fails is printed, and counted. */
#ifndef PAGESHARE_CHECK_H
#define PAGESHARE_CHECK_H

#include <stdio.h>

static int failures = 0;

#define CHECK(condition)                                             \
    do {                                                             \
        if (!(condition)) {                                          \
            printf("line %d: not so: %s\n", __LINE__, #condition);   \
            failures++;                                              \
        }                                                            \
    } while (0)

#endif
