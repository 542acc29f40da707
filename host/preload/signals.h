/* Parts of the library in which no handler of a signal runs on the calling thread. */
#ifndef HOST_SIGNALS_H
#define HOST_SIGNALS_H

#include <errno.h>
#include <pthread.h>
#include <signal.h>
#include <stdbool.h>

/*
 * Signals wait from now on, but for those that the thread itself causes. A handler must not run where its thread has a lock of the library:
 * the filter may show a call that the handler makes, and who answers that waits for the lock.
 */
static inline void signals_hold(sigset_t *before) {
    static const int own[] = {SIGSEGV, SIGBUS, SIGFPE, SIGILL, SIGTRAP, SIGSYS};
    sigset_t held;
    sigfillset(&held);
    for (size_t i = 0; i < sizeof own / sizeof own[0]; i++) sigdelset(&held, own[i]);
    pthread_sigmask(SIG_BLOCK, &held, before);
}

static inline void signals_let(const sigset_t *before) { pthread_sigmask(SIG_SETMASK, before, NULL); }

/* Starts a thread that nobody waits for; signals are for the monitor's own. Returns false, with errno, if there is none. */
static inline bool signals_start(void *(*run)(void *)) {
    pthread_t thread;
    sigset_t all, before;
    sigfillset(&all);
    if (pthread_sigmask(SIG_SETMASK, &all, &before) != 0) return false;
    int cause = pthread_create(&thread, NULL, run, NULL);
    pthread_sigmask(SIG_SETMASK, &before, NULL);
    if (cause == 0) pthread_detach(thread);
    else errno = cause;
    return cause == 0;
}

#endif
