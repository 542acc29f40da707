/* A device that has pinned a page: io_uring with a registered buffer, which reads a file to the page's physical address. */
#ifndef PAGESHARE_WINDOW_RING_H
#define PAGESHARE_WINDOW_RING_H

#include <stdbool.h>
#include <stddef.h>

struct ring {
    int fd;
    void *queue, *entries;
    size_t queue_bytes, entries_bytes;
    unsigned tail_at, mask_at, array_at;
};

/* Pins `bytes` bytes at `at`. Returns false, with errno, if the system has no io_uring. */
bool ring_pin(struct ring *ring, void *at, size_t bytes);
/* Reads the file from its beginning to the pinned bytes; returns when it is done. */
bool ring_read(struct ring *ring, int file, void *at, size_t bytes);
void ring_unpin(struct ring *ring);

#endif
