/* What the kernel takes for the mappings (VMAs) of a process. */
#ifndef HOST_MAPPINGS_H
#define HOST_MAPPINGS_H

#include <stdbool.h>
#include <stdint.h>

struct mappings_price {
    uint64_t bytes; /* of one mapping of windows */
    bool is_read;   /* from /proc/slabinfo; otherwise these are the sizes that Linux 6.18 has */
    uint64_t most;  /* mappings of a process, as the system lets it have now */
};
struct mappings_price mappings_price_of(void);

#endif
