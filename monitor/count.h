/* The bound: how many pages could be saved, by a count of distinct contents. */
#ifndef MONITOR_COUNT_H
#define MONITOR_COUNT_H

#include <stdbool.h>
#include <stddef.h>
#include <stdint.h>

struct counted {
    size_t pages, distinct;
};

/* Counts distinct contents among `count` pages. It orders the list. Pages are compared in full. */
struct counted count_distinct(const uint8_t **pages, size_t count);

#endif
