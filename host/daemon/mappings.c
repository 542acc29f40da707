#define _GNU_SOURCE
#include "mappings.h"
#include "lines.h"
#include <stdio.h>
#include <string.h>

/*
 * What mappings need of the kernel's slabs. Each is a vm_area_struct. Between two that show frames lies one of the guest's own, which has an
 * anon_vma_chain besides. A maple_node contains 12 of them, measured where neighbours were mapped in turn (13.3) and at random (11.4).
 */
static const struct slab {
    const char *name;
    double of_mapping;
    unsigned objects, pages; /* a slab's objects, and the pages for them, on Linux 6.18 */
} slabs[] = {{"vm_area_struct", 1, 21, 1}, {"anon_vma_chain", 0.5, 64, 1}, {"maple_node", 1.0 / 12, 16, 1}};
enum { SLABS = sizeof slabs / sizeof *slabs };

/* Reads a line of /proc/slabinfo. Returns whether it is of one of these slabs, whose numbers it has written then. */
static bool read_slab(const char *line, struct slab found[SLABS]) {
    char name[64];
    unsigned objects, pages;
    if (sscanf(line, "%63s %*u %*u %*u %u %u", name, &objects, &pages) != 3 || objects == 0) return false;
    for (struct slab *it = found; it < found + SLABS; it++) {
        if (strcmp(name, it->name) != 0) continue;
        it->objects = objects;
        it->pages = pages;
        return true;
    }
    return false;
}

/* The slabs as this kernel has them. Returns whether it says so of all, as it does to root. */
static bool read_slabs(struct slab found[SLABS]) {
    struct lines lines;
    unsigned read = 0;
    memcpy(found, slabs, sizeof slabs);
    if (lines_open(&lines, "/proc/slabinfo") != 0) return false;
    for (const char *line; (line = lines_next(&lines)) != NULL;) read += read_slab(line, found);
    lines_close(&lines);
    return read == SLABS;
}

/* How many mappings a process may have. */
static uint64_t read_limit(void) {
    unsigned long long most = 65530;
    FILE *file = fopen("/proc/sys/vm/max_map_count", "re");
    if (file && fscanf(file, "%llu", &most) != 1) most = 65530;
    if (file) fclose(file);
    return most;
}

struct mappings_price mappings_price_of(void) {
    struct slab found[SLABS];
    double bytes = 0;
    bool is_read = read_slabs(found);
    for (const struct slab *it = found; it < found + SLABS; it++) bytes += it->of_mapping * it->pages * 4096 / it->objects;
    return (struct mappings_price){.bytes = (uint64_t)bytes, .is_read = is_read, .most = read_limit()};
}
