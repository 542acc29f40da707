/* The calls that a monitor makes of parts of its memory, and what each makes of the shadow. */
#ifndef BREAKER_CALLS_H
#define BREAKER_CALLS_H

#include "ring.h"
#include "shadow.h"
#include <stdatomic.h>

/* What a device does: nothing, holding pages, or reading to them. */
enum device_step { DEVICE_IDLE, DEVICE_PINNED, DEVICE_READING };

struct device {
    struct ring ring;
    enum device_step step;
    struct run run;
    uint8_t *at;   /* where the pages were when they were pinned */
    int ends[2];   /* of the pipe that it reads from */
    bool is_there; /* this run has devices, and the system too */
};

/* A thread that makes calls. */
struct caller {
    uint64_t seed;
    unsigned number;
    bool is_alone;  /* no other thread makes calls: pages may be another thread's */
    uint8_t *aside; /* CALL_PAGES of memory that isn't offered */
    struct device device;
    _Atomic(const char *) now; /* the call that it makes, or NULL */
    _Atomic(size_t) now_first, now_count;
    atomic_ulong calls;
};

/* A file with known contents: read by the page cache, and by O_DIRECT or -1; and a place for what is written, a part for each caller. */
enum { FILE_PAGES = 64, CALL_PAGES = 64, CALLERS_MOST = 8 };
struct files {
    int plain, direct;
};
extern struct files files;
/* The system may refuse any call: then pages that are discarded may be zeros. */
extern bool calls_may_be_refused;
/* The range may be huge pages. */
extern bool calls_are_of_huge_pages;
/* Makes the files in a folder. `is_direct`: O_DIRECT, too. Returns false, with errno. */
bool files_make(const char *folder, bool is_direct);

/* Makes one random call of pages from `first` on, of at most `most`, if one fits what they are. */
void call_random(struct caller *caller, size_t first, size_t most);
/* Puts all pages back in their places, readable, writable and unlocked, and offers the whole range. */
void call_restore(struct caller *caller);
/* Writes all pages that can be written, each with a content of its own. */
void call_write_apart(struct caller *caller);
/* Ends what the caller's device does. */
void call_end_device(struct caller *caller);

/* How often each call was made, and refused, as one line of text. */
void calls_print(char *text, size_t room);

/* Forks, if not too many children live. A child compares all that it has with the shadow, twice, and makes calls of its own. No other
 * thread makes calls meanwhile. */
void call_fork(struct caller *caller);
/* Takes the status of children that have ended; with `all` it waits for the others. */
void children_reap(bool all);

#endif
