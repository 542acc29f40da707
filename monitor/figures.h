/* What a fleet's run came to: a sample each second, a table, JSON, and a line on a terminal. */
#ifndef MONITOR_FIGURES_H
#define MONITOR_FIGURES_H

#include "../window/window.h"
#include "count.h"
#include "looker.h"
#include <stdbool.h>
#include <stddef.h>
#include <stdint.h>
#include <stdio.h>

struct sample {
    double at;   /* seconds since the guests began */
    double held; /* bytes that the system holds for the guests' pages */
    uint64_t rounds;
    uint64_t saved;           /* pages that share a frame with others, less those frames */
    double processor, helper; /* processor seconds of this process, and of the kernel's ksmd */
    struct looked looked;     /* where pages are lent */
    struct windows_counts windows;
};

struct figures {
    const char *name; /* of the way of sharing */
    size_t count, most;
    struct sample *samples;
    struct counted bound;           /* of all pages that the guests have at the end */
    uint64_t wrong;                 /* words that the guests found wrong */
    double round_ms, round_wall_ms; /* of a guest's round in the second half of the run, mean: processor time, and time */
    double write_cycles;            /* of a write to a seldom written page, the same */
    double table_bytes;             /* page tables of this process */
    size_t own;                     /* pages at the end that have memory of their own */
    int64_t requests;               /* of the journal; 0 for none */
};

bool figures_make(struct figures *figures, size_t most);
/* Space for the next sample, or NULL. */
struct sample *figures_next(struct figures *figures);

/* Draws a line anew on a terminal: what the last sample shows. */
void figures_watch(const struct figures *figures, FILE *to);
void figures_print(struct figures *figures, FILE *to);
/* Returns false, with errno, if the file can't be written. benches/held.py draws a picture of the file. */
bool figures_json(struct figures *figures, const char *path);

#endif
