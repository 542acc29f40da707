/*
 * A filter of system calls (seccomp, with a listener), by which the system shows calls to this library before they are made, whatever code
 * makes them: those of calls.h. Their callers wait meanwhile. Where there is no filter, the library sees such calls only if they are made by
 * the C library, and otherwise what comes of them.
 */
#ifndef HOST_FILTER_H
#define HOST_FILTER_H

#include <stdbool.h>

/*
 * Begins it for all threads of this process, if that can be without taking rights from the process: where it can't get new privileges
 * anyway (no_new_privs), or PAGESHARE_FILTER is 1. Not where PAGESHARE_FILTER is 0. Called once, with no lock of this library.
 */
void filter_begin(void);
/* Whether it is on. */
bool filter_is_on(void);

/*
 * Makes a call of the system that the filter lets pass: the library's own, or one for which the library has done by now what is to be done.
 * Returns what syscall(2) does.
 */
long filter_pass(long number, long first, long second, long third, long fourth, long fifth);

#endif
