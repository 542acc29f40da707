/* An operator switches sharing off and on in a process that runs, or limits what it takes (counts.h). All of this is the library's thread's. */
#ifndef HOST_PAUSING_H
#define HOST_PAUSING_H

#include "counts.h"
#include <stdbool.h>

/*
 * Heeds what is wanted, to be called at least once a second. While sharing is to pause, pages get memory of their own: a hundredth of a
 * processor's time goes there at most, and nothing while memory is short.
 */
void pausing_heed(bool is_memory_short);
/* Whether nothing becomes a window. */
bool pausing_is_on(void);
enum counts_state pausing_state(void);
/* The percentage of one processor that the thread may use as the operator wants, or 0: the operator sets no limit. */
unsigned pausing_limit(void);

#endif
