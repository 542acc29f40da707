/* What the monitor passes to the guest of guest.c, where that stands in its memory, and the ports between them. */
#ifndef MONITOR_GUEST_H
#define MONITOR_GUEST_H

#include <stdint.h>

/* Addresses. A processor's stack has 64 KiB. */
enum {
    GUEST_GDT = 0x500,
    GUEST_CONFIG = 0x1000,
    GUEST_STACKS = 0x40000,
    GUEST_STACK_BYTES = 0x10000,
    GUEST_TABLES = 0x100000,
    GUEST_CODE = 0x200000,
    GUEST_DATA = 0x400000,
    GUEST_LEAST = 0x500000, /* the least and the most memory, in bytes */
    GUEST_MOST = 0x1c000000
};

/* Processor p prints text on PORT_TEXT + p; a byte on PORT_REST lets it rest for so many hundredths of a second. */
enum { PORT_TEXT = 0xf0, PORT_REST = 0x10 };

struct guest_config {
    uint64_t number, processors;
    uint64_t begin, end; /* of the memory that it fills, in bytes */
    uint64_t rest;
};

/* Fills and checks memory for ever, on a processor; of guest.c. */
void guest_run(const struct guest_config *config, uint64_t processor);

#endif
