/* What an operator wants of a guest's sharing while it runs: --pause, --resume and --limit. */
#ifndef HOST_PAUSING_H
#define HOST_PAUSING_H

#include <stdbool.h>

/*
 * Asks the library in a guest's process, by the guest's name or the process's number, to pause sharing or to go on. Pausing waits until all of
 * the guest's memory is its own, but no longer than a minute. Prints what came of it. Returns the process's status: 0, 1 if there is no such
 * guest or it can't be asked, PAUSING_LATE if that goes on still.
 */
int pausing_ask(const char *whom, bool pauses);
/* The same for the percentage of a processor that sharing may use there; 0: as much as without an operator's limit. */
int pausing_limit(const char *whom, unsigned percent);
enum { PAUSING_LATE = 3 };

#endif
