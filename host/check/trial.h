/*
 * A trial of sharing: a host of its own and some processes under the library, which share, write, discard and fork beside a shadow of
 * every byte, as do guests of theirs where there is KVM. All of it is gone when it ends, also by SIGINT, SIGTERM or SIGHUP.
 */
#ifndef HOST_TRIAL_H
#define HOST_TRIAL_H

#include "check.h"
#include <stdint.h>

enum { TRIAL_MEMBERS = 3, MEMBER_MIB = 8 };

/* What a process of the trial counts, and writes to its standard output when it ends. */
struct member_counts {
    uint64_t compared, written, discarded; /* pages */
    uint64_t children;
    uint64_t by_guest;  /* pages that its guest under KVM compared */
    uint64_t kvm_cause; /* why it has none: an errno, or 0 */
};

struct trial {
    bool is_right;
    char why[256]; /* what was wrong, if it isn't right */
    char library[CHECK_PATH_MOST];
    struct member_counts done;      /* by all of them */
    uint64_t lends, reclaimed_most; /* pages */
    int said; /* a file without a name that has what the host and the library wrote on standard error; NOTHING: there is none */
};

/* Runs the trial for so many seconds, and some more until its processes have begun and ended. */
void trial_run(struct trial *trial, unsigned seconds);
/* Prints what the host and the library said, if the trial wasn't right. */
void trial_say_lines(struct trial *trial);

/* A process of the trial, under the library, for so many seconds. Returns its status: 0, MEMBER_WRONG or MEMBER_CANT. */
enum { MEMBER_WRONG = 1, MEMBER_CANT = 3 };
int member_run(unsigned seconds);

#endif
