/* What kernels have of which older headers know nothing. */
#ifndef PAGESHARE_WINDOW_NEWER_H
#define PAGESHARE_WINDOW_NEWER_H

#include <linux/userfaultfd.h>
#include <stdint.h>
#include <sys/ioctl.h>

/* From Linux 6.7 on. */
struct scan {
    uint64_t size, flags, start, end, walk_end, regions, region_count, most_pages;
    uint64_t inverted, all_of, any_of, answered;
};
#define SCAN_PAGES _IOWR('f', 16, struct scan)

/* From Linux 6.8 on. */
enum { FEATURE_MOVE = 1 << 16 };
struct move {
    uint64_t to, from, bytes, mode;
    int64_t moved;
};
#define MOVE_PAGES _IOWR(UFFDIO, 0x05, struct move)

/* From Linux 6.11 on. */
struct question {
    uint64_t bytes, flags, address, begin, end, rights, page_bytes, from, inode;
    uint32_t major, minor, name_bytes, build_bytes;
    uint64_t name, build;
};
#define ASK_MAPPING _IOWR('f', 17, struct question)

#endif
