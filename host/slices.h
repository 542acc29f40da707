/* The time slices of a thread for which others wait. */
#ifndef HOST_SLICES_H
#define HOST_SLICES_H

#include <sched.h>
#include <stdint.h>
#include <sys/resource.h>
#include <sys/syscall.h>
#include <unistd.h>

/* What sched_setattr(2) takes. */
struct schedule {
    uint32_t size, policy;
    uint64_t flags;
    int32_t nice;
    uint32_t priority;
    uint64_t runtime_ns, deadline_ns, period_ns;
};

/*
 * The calling thread gets a processor soon when it needs one, and for less time than others. Anyone may ask for that (Linux 6.12).
 * Where the system doesn't know it, or refuses it, the thread stays as it is.
 */
static inline void ask_for_short_slices(void) {
    static const uint64_t slice_ns = 100000;
    if (sched_getscheduler(0) != SCHED_OTHER) return;
    const struct schedule schedule = {
        .size = sizeof schedule, .policy = SCHED_OTHER, .nice = getpriority(PRIO_PROCESS, 0), .runtime_ns = slice_ns};
    syscall(SYS_sched_setattr, 0, &schedule, 0);
}

#endif
