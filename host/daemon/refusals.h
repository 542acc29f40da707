/* Connections that a domain doesn't take: how many, and why. A line says so at once, and then at most once a minute. */
#ifndef HOST_REFUSALS_H
#define HOST_REFUSALS_H

#include <stddef.h>
#include <stdint.h>
#include <sys/socket.h>

enum refusal {
    REFUSAL_NONE,
    REFUSAL_UNTRUSTED, /* the peer could write shared pages */
    REFUSAL_TOO_OFTEN, /* it or its user connects too often */
    REFUSAL_FULL,      /* there are as many clients as may be */
    REFUSAL_SYSTEM,    /* the system or the library refused what a client takes */
    REFUSALS
};

/* Zeros to begin with. One thread has it. */
struct refusals {
    uint64_t total;
    uint64_t pending[REFUSALS]; /* since the last line */
    uint64_t next_ns;           /* no line is printed before */
    struct ucred last;          /* the process that was refused last */
    enum refusal why;           /* and why */
};

/* Counts a refused connection. */
void refusals_count(struct refusals *refusals, const char *domain, const struct ucred *peer, enum refusal why);
/* Prints what wasn't printed yet, if a minute has passed since the last line. */
void refusals_report(struct refusals *refusals, const char *domain);

#endif
