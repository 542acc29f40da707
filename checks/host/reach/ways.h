/* The ways by which pages of a thread are written, read, given up and watched, by itself and by others, and what each makes of the shadow. */
#ifndef REACH_WAYS_H
#define REACH_WAYS_H

#include "pages.h"
#include <stdatomic.h>

/* A thread that takes ways, with its pages. */
struct worker {
    uint64_t seed;
    size_t first, count;
    bool is_first;             /* some ways are the first thread's alone */
    _Atomic(const char *) now; /* the way that it takes */
    atomic_ulong rounds;
};

/* How calls are made: by their names; by their names or numbers, as it comes; or, those that the filter shows, by instructions of its own. */
enum how { BY_NAME, BY_NUMBER, BY_INSTRUCTION };

/* Draws which ways a seed has, and from when on devices; and makes what they need. Returns false, with errno. */
bool ways_begin(uint64_t seed, unsigned seconds, enum how how);
/* Takes one by chance. */
void way_take(struct worker *worker);
/* How often each was taken, and refused, as one line of text. */
void ways_print(char *text, size_t room);

#endif
