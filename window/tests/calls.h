/*
 * Calls that windows make of the system and of their lender, counted by kind, of which a test has some refused. Linked with -Wl,--wrap for
 * fcntl, getrlimit, ioctl, madvise, mmap, mprotect, mremap, munmap, open, pread and syscall.
 */
#ifndef PAGESHARE_WINDOW_CALLS_H
#define PAGESHARE_WINDOW_CALLS_H

#include <stdbool.h>
#include <stddef.h>
#include <stdint.h>

/* Kinds of calls. */
enum call {
    CALL_MOVE, /* of a userfaultfd */
    CALL_COPY,
    CALL_PROTECT,
    CALL_WATCH,
    CALL_END_WATCH,
    CALL_WAKE,
    CALL_OPEN_FAULTS,
    CALL_SCAN, /* of page tables */
    CALL_PAGEMAP,
    CALL_ASK_MAPPING, /* about one mapping */
    CALL_MAP,         /* of mappings; FIXED: in the place of another */
    CALL_MAP_FIXED,
    CALL_UNMAP,
    CALL_REMAP,
    CALL_MPROTECT,
    CALL_DONTFORK, /* advice */
    CALL_DOFORK,
    CALL_DUMP,
    CALL_NOHUGEPAGE,
    CALL_HUGEPAGE,
    CALL_UNMERGEABLE,
    CALL_MERGEABLE,
    CALL_DONTNEED,
    CALL_POPULATE_READ,
    CALL_POPULATE_WRITE,
    CALL_OTHER_ADVICE,
    CALL_SET_POLICY,
    CALL_READ_POLICY,
    CALL_OPEN, /* of files */
    CALL_READ,
    CALL_DESCRIPTOR,
    CALL_LIMIT,
    CALL_ASK, /* of the lender */
    CALL_LEND,
    CALL_RELEASE,
    CALLS
};

/* Which calls of a kind are refused: from one of a step on, of which the first has number 1. Of CALLS, which is any kind, one in so many. */
struct refusal {
    enum call call;
    unsigned step, from, count, one_in;
    unsigned draw; /* says with which of the errors that the system could return, and which of any kind */
    bool is_half;  /* a call of several pages does half of its work first; a read returns half of what there is */
};

const char *call_name(enum call call);
/* Whether a call of a kind can do half of its work. */
bool call_has_half(enum call call);
/* Counts from 0 on, and refuses these calls; none if `refusal` is NULL. */
void calls_begin(const struct refusal *refusal);
/* A step begins, in which calls are counted from 0 on. */
void calls_step(unsigned step);
/* Nothing is refused any more. */
void calls_stop(void);
/* What is called before pages are watched by a call that counts; NULL: nothing. */
void calls_before_watch(void (*watches)(uintptr_t at, size_t bytes));
/* Whether the calls of this thread count from now on. */
void calls_count(bool do_count);
/* How many were made in this step, and how many refused in all. */
unsigned calls_made(enum call call);
unsigned calls_refused(void);
unsigned calls_refused_of(enum call call);
/* Counts a call of the lender. Returns 0, or the errno that it is refused with. */
int calls_of_lender(enum call call);

#endif
