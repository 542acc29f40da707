/* Whether the system's memory is short. */
#ifndef HOST_MEMORY_H
#define HOST_MEMORY_H

#include <stdbool.h>

/*
 * Whether less than a tenth of the system's memory is available (MemAvailable), or some tasks waited for memory for more than a tenth of the
 * last ten seconds (/proc/pressure/memory). What can't be read doesn't count.
 */
bool memory_is_short(void);

#endif
