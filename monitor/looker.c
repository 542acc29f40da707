#define _GNU_SOURCE
#include "looker.h"
#include "../window/lender/clock.h"
#include <errno.h>
#include <signal.h>

/* A look that lends so many pages has found much. */
enum { MUCH = 512, FASTER = 4 };

static void look(struct looker *looker) {
    struct window_result result = windows_look(looker->windows);
    lender_trim(looker->lender);
    pthread_mutex_lock(&looker->lock);
    lender_count(looker->lender, &looker->looked.totals, &looker->looked.lender);
    if (looker->looked.result.status == WINDOW_OK) looker->looked.result = result;
    looker->looked.thread_ns = clock_ns(CLOCK_THREAD_CPUTIME_ID);
    looker->looked.looks++;
    pthread_mutex_unlock(&looker->lock);
}

/* Waits for the next look, or until the thread is to stop. */
static void wait_for_look(struct looker *looker, unsigned wait_ms) {
    struct timespec until;
    clock_gettime(CLOCK_REALTIME, &until);
    until.tv_sec += wait_ms / 1000;
    until.tv_nsec += wait_ms % 1000 * 1000000l;
    if (until.tv_nsec >= 1000000000l) until.tv_sec++, until.tv_nsec -= 1000000000l;
    pthread_mutex_lock(&looker->lock);
    while (!atomic_load(&looker->stop) && pthread_cond_timedwait(&looker->wakes, &looker->lock, &until) != ETIMEDOUT) {
    }
    pthread_mutex_unlock(&looker->lock);
}

static void *look_often(void *opaque) {
    struct looker *looker = opaque;
    for (uint64_t before = 0, lends = 0; !atomic_load(&looker->stop); before = lends) {
        struct windows_counts counts;
        look(looker);
        windows_count(looker->windows, &counts);
        lends = counts.lends + counts.zeros;
        wait_for_look(looker, lends - before >= MUCH ? looker->period_ms / FASTER : looker->period_ms);
    }
    look(looker);
    return NULL;
}

int looker_start(struct looker *looker, struct windows *windows, struct lender *lender, unsigned period_ms) {
    sigset_t all, before;
    *looker = (struct looker){.windows = windows, .lender = lender, .period_ms = period_ms};
    pthread_mutex_init(&looker->lock, NULL);
    pthread_cond_init(&looker->wakes, NULL);
    sigfillset(&all);
    sigdelset(&all, SIGBUS); /* (where a frame gets no memory; see bus.h) */
    pthread_sigmask(SIG_SETMASK, &all, &before);
    int cause = pthread_create(&looker->thread, NULL, look_often, looker);
    pthread_sigmask(SIG_SETMASK, &before, NULL);
    return cause;
}

void looker_stop(struct looker *looker) {
    pthread_mutex_lock(&looker->lock);
    atomic_store(&looker->stop, true);
    pthread_cond_signal(&looker->wakes);
    pthread_mutex_unlock(&looker->lock);
    pthread_join(looker->thread, NULL);
    pthread_cond_destroy(&looker->wakes);
    pthread_mutex_destroy(&looker->lock);
}

struct looked looker_get(struct looker *looker) {
    pthread_mutex_lock(&looker->lock);
    struct looked looked = looker->looked;
    pthread_mutex_unlock(&looker->lock);
    return looked;
}
