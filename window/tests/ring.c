#define _GNU_SOURCE
#include "ring.h"
#include <linux/io_uring.h>
#include <stdint.h>
#include <string.h>
#include <sys/mman.h>
#include <sys/syscall.h>
#include <sys/uio.h>
#include <unistd.h>

enum { ENTRIES = 4 };

bool ring_pin(struct ring *ring, void *at, size_t bytes) {
    struct io_uring_params params = {0};
    struct iovec buffer = {.iov_base = at, .iov_len = bytes};
    const int rights = PROT_READ | PROT_WRITE;
    *ring = (struct ring){.fd = (int)syscall(SYS_io_uring_setup, ENTRIES, &params)};
    if (ring->fd < 0) return false;
    ring->queue_bytes = params.sq_off.array + ENTRIES * sizeof(uint32_t);
    ring->entries_bytes = ENTRIES * sizeof(struct io_uring_sqe);
    ring->queue = mmap(NULL, ring->queue_bytes, rights, MAP_SHARED, ring->fd, IORING_OFF_SQ_RING);
    ring->entries = mmap(NULL, ring->entries_bytes, rights, MAP_SHARED, ring->fd, IORING_OFF_SQES);
    ring->tail_at = params.sq_off.tail;
    ring->mask_at = params.sq_off.ring_mask;
    ring->array_at = params.sq_off.array;
    if (ring->queue == MAP_FAILED || ring->entries == MAP_FAILED) return false;
    return syscall(SYS_io_uring_register, ring->fd, IORING_REGISTER_BUFFERS, &buffer, 1) >= 0;
}

static uint32_t *word_at(const struct ring *ring, unsigned at) { return (uint32_t *)(void *)((uint8_t *)ring->queue + at); }

bool ring_read(struct ring *ring, int file, void *at, size_t bytes) {
    uint32_t *tail = word_at(ring, ring->tail_at), *array = word_at(ring, ring->array_at);
    uint32_t place = *tail & *word_at(ring, ring->mask_at);
    struct io_uring_sqe *entry = (struct io_uring_sqe *)ring->entries + place;
    memset(entry, 0, sizeof *entry);
    entry->opcode = IORING_OP_READ_FIXED;
    entry->fd = file;
    entry->addr = (uintptr_t)at;
    entry->len = (uint32_t)bytes;
    array[place] = place;
    __atomic_store_n(tail, *tail + 1, __ATOMIC_RELEASE);
    return syscall(SYS_io_uring_enter, ring->fd, 1, 1, IORING_ENTER_GETEVENTS, NULL, 0) == 1;
}

void ring_unpin(struct ring *ring) {
    syscall(SYS_io_uring_register, ring->fd, IORING_UNREGISTER_BUFFERS, NULL, 0);
    munmap(ring->queue, ring->queue_bytes);
    munmap(ring->entries, ring->entries_bytes);
    close(ring->fd);
}
