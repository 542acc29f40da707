/* A device that writes to memory by its physical address, some time after it was asked: io_uring, with one registered buffer or file. */
#ifndef BREAKER_RING_H
#define BREAKER_RING_H

#include <stdbool.h>
#include <stddef.h>
#include <sys/types.h>

struct ring {
    int fd;
    void *queue, *completions, *entries;
    size_t queue_bytes, completions_bytes, entries_bytes;
    unsigned tail_at, mask_at, array_at, head_at, completed_at, completion_mask_at, results_at;
};

/* What makes the calls of the system: at first syscall(2). */
extern long (*ring_call)(long number, ...);

/* Returns false, with errno, where the system has no io_uring. */
bool ring_make(struct ring *ring);
void ring_end(struct ring *ring);
/* Pins memory, as the only buffer, and lets it go. */
bool ring_pin(struct ring *ring, void *at, size_t bytes);
bool ring_unpin(struct ring *ring);
/* Begins to read from a file or pipe, from `from` on or -1 for where it is, to pinned memory. */
bool ring_begin_read(struct ring *ring, int file, void *at, size_t bytes, off_t from);
/* Begins to read from a file to memory that isn't pinned yet. -1: from the file that the ring keeps. */
bool ring_begin_plain_read(struct ring *ring, int file, void *at, size_t bytes, off_t from);
/* Has the ring keep a file, whose descriptor may be closed then. */
bool ring_keep(struct ring *ring, int file);
/* Waits until a read has ended. Returns how many bytes it has read, or an errno as a negative number. */
ssize_t ring_end_read(struct ring *ring);

#endif
