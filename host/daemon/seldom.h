/* Lines that may be due often, such as one for each connection that can't be taken: each kind is printed at most once a minute. */
#ifndef HOST_SELDOM_H
#define HOST_SELDOM_H

#include "trouble.h"

/* One kind of line; zeros to begin with. One thread has it. */
struct seldom {
    uint64_t next_ns;  /* it isn't printed before */
    uint64_t left_out; /* since it was printed last */
};

/* Whether a line of this kind is printed now. `*left_out` is how often it was left out since it was printed last. */
static inline bool seldom_is_due(struct seldom *kind, uint64_t *left_out) {
    static const uint64_t minute_ns = UINT64_C(60000000000);
    uint64_t now = now_ns();
    *left_out = kind->left_out;
    if (now < kind->next_ns) return kind->left_out++, false;
    *kind = (struct seldom){.next_ns = now + minute_ns};
    return true;
}

/* Prints what failed, with the cause that errno has. Returns false. */
static inline bool seldom_trouble(struct seldom *kind, const char *what) {
    int cause = errno;
    uint64_t left_out;
    if (!seldom_is_due(kind, &left_out)) return false;
    if (left_out == 0) log_line("%s: %s", what, strerror(cause));
    else
        log_line("%s: %s (and %llu times before, since the last such line)", what, strerror(cause), (unsigned long long)left_out);
    return false;
}

#endif
