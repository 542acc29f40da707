/* The thread that looks at windows, lends, and trims free frames. */
#ifndef MONITOR_LOOKER_H
#define MONITOR_LOOKER_H

#include "../window/lender/domain_lender.h"
#include "../window/window.h"
#include <pthread.h>
#include <stdatomic.h>
#include <stdbool.h>

/* What the thread found at its last look. */
struct looked {
    struct pageshare_domain_totals totals;
    struct lender_counts lender;
    struct window_result result; /* the first look that did not come out well, or the last one */
    uint64_t thread_ns;          /* processor time of the thread */
    uint64_t looks;
};

struct looker {
    struct windows *windows;
    struct lender *lender;
    unsigned period_ms; /* of looks; they come four times as often while they find much */
    atomic_bool stop;
    pthread_t thread;
    pthread_mutex_t lock; /* round what follows */
    pthread_cond_t wakes;
    struct looked looked;
};

/* Starts the thread, which takes no signals. Returns 0 or an errno. */
int looker_start(struct looker *looker, struct windows *windows, struct lender *lender, unsigned period_ms);
/* Makes a last look, so that slots are released, and ends the thread. */
void looker_stop(struct looker *looker);
struct looked looker_get(struct looker *looker);

#endif
