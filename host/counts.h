/*
 * What the library counts in a client, for operators, and what an operator wants of it: a file without a name (memfd) that the process keeps
 * open. Other processes that may look at its descriptors find the file there, so no message is needed, and none that a host would have to keep.
 * A reader takes nothing for granted: the process can write anything.
 */
#ifndef HOST_COUNTS_H
#define HOST_COUNTS_H

#include <stdint.h>

#define COUNTS_NAME "pageshare-counts"
/* The file has COUNTS_BYTES bytes and is sealed: it grows and shrinks no more. */
enum { COUNTS_VERSION = 4, COUNTS_BYTES = 4096, COUNTS_WHY_AT = 1024, COUNTS_WHY_MOST = 128, COUNTS_WANTED_AT = 2048 };

/* What becomes of sharing. */
enum counts_state {
    COUNTS_SHARES,
    COUNTS_COMES_HOME, /* an operator has paused it, and pages get memory of their own */
    COUNTS_WAITS,      /* the same, and the system has no memory for them at present, or the monitor watches its memory by a userfaultfd */
    COUNTS_PAUSED,     /* all have memory of their own, and nothing is lent until it goes on */
    COUNTS_STAYS       /* the same. Parts will stay as they are when it goes on, since devices may have pinned pages */
};

struct counts {
    uint64_t version;
    uint64_t pages;                                /* of windows */
    uint64_t mappings, mappings_most;              /* of the system, that windows take and may take */
    uint64_t parts_whole, parts_split, parts_huge; /* see HOST, Huge pages; huge: those of the whole ones that are a huge page */
    uint64_t round_ns;                             /* how long the last look took */
    uint64_t is_filtered;                          /* 1 if the system shows the library each call that may let devices write */
    uint64_t lent;                                 /* pages */
    uint64_t state;                                /* an enum counts_state */
    uint64_t zeros;                                /* pages that were given back as zeros, and weren't found written */
    uint64_t library_bytes;                        /* what the library's tables take */
    uint64_t percent;                              /* of one processor, that the library's thread may use */
    uint64_t limit;                                /* the percentage that an operator lets it use, as far as it has heard; or 0 */
};
_Static_assert(sizeof(struct counts) <= COUNTS_WHY_AT, "words stand behind the counts");

/* At COUNTS_WHY_AT stands why nothing is lent of some memory, or of all: words that end with a zero, or nothing. */

/* What an operator wants, at COUNTS_WANTED_AT. */
struct counts_wanted {
    uint64_t sharing; /* COUNTS_PAUSE, or any other number: COUNTS_SHARE */
    uint64_t limit;   /* the percentage of one processor that the library's thread may use, 1 to 100. Any other number: no limit */
};
enum counts_sharing { COUNTS_SHARE, COUNTS_PAUSE };
enum { COUNTS_LIMIT_MOST = 100 };

#endif
