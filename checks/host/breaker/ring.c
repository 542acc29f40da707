#define _GNU_SOURCE
#include "ring.h"
#include <errno.h>
#include <linux/io_uring.h>
#include <stdint.h>
#include <string.h>
#include <sys/mman.h>
#include <sys/syscall.h>
#include <sys/uio.h>
#include <unistd.h>

enum { ENTRIES = 4 };

long (*ring_call)(long number, ...) = syscall;

static void *map(const struct ring *ring, size_t bytes, long part) {
    return mmap(NULL, bytes, PROT_READ | PROT_WRITE, MAP_SHARED, ring->fd, part);
}

bool ring_make(struct ring *ring) {
    struct io_uring_params params = {0};
    *ring = (struct ring){.fd = (int)ring_call(SYS_io_uring_setup, ENTRIES, &params)};
    if (ring->fd < 0) return false;
    ring->queue_bytes = params.sq_off.array + params.sq_entries * sizeof(uint32_t);
    ring->completions_bytes = params.cq_off.cqes + params.cq_entries * sizeof(struct io_uring_cqe);
    ring->entries_bytes = params.sq_entries * sizeof(struct io_uring_sqe);
    ring->queue = map(ring, ring->queue_bytes, IORING_OFF_SQ_RING);
    ring->completions = map(ring, ring->completions_bytes, IORING_OFF_CQ_RING);
    ring->entries = map(ring, ring->entries_bytes, IORING_OFF_SQES);
    ring->tail_at = params.sq_off.tail;
    ring->mask_at = params.sq_off.ring_mask;
    ring->array_at = params.sq_off.array;
    ring->head_at = params.cq_off.head;
    ring->completed_at = params.cq_off.tail;
    ring->completion_mask_at = params.cq_off.ring_mask;
    ring->results_at = params.cq_off.cqes;
    return ring->queue != MAP_FAILED && ring->completions != MAP_FAILED && ring->entries != MAP_FAILED;
}

void ring_end(struct ring *ring) {
    munmap(ring->queue, ring->queue_bytes);
    munmap(ring->completions, ring->completions_bytes);
    munmap(ring->entries, ring->entries_bytes);
    close(ring->fd);
}

bool ring_keep(struct ring *ring, int file) {
    return ring_call(SYS_io_uring_register, ring->fd, IORING_REGISTER_FILES, &file, 1) >= 0;
}

bool ring_pin(struct ring *ring, void *at, size_t bytes) {
    const struct iovec buffer = {.iov_base = at, .iov_len = bytes};
    return ring_call(SYS_io_uring_register, ring->fd, IORING_REGISTER_BUFFERS, &buffer, 1) >= 0;
}

bool ring_unpin(struct ring *ring) { return ring_call(SYS_io_uring_register, ring->fd, IORING_UNREGISTER_BUFFERS, NULL, 0) >= 0; }

static uint32_t *word_at(void *part, unsigned at) { return (uint32_t *)(void *)((uint8_t *)part + at); }

static bool begin(struct ring *ring, const struct io_uring_sqe *asked) {
    uint32_t *tail = word_at(ring->queue, ring->tail_at), place = *tail & *word_at(ring->queue, ring->mask_at);
    ((struct io_uring_sqe *)ring->entries)[place] = *asked;
    word_at(ring->queue, ring->array_at)[place] = place;
    __atomic_store_n(tail, *tail + 1, __ATOMIC_RELEASE);
    long submitted;
    do submitted = ring_call(SYS_io_uring_enter, ring->fd, 1, 0, 0, NULL, 0);
    while (submitted < 0 && errno == EINTR);
    return submitted == 1;
}

static struct io_uring_sqe read_of(int file, void *at, size_t bytes, off_t from) {
    return (struct io_uring_sqe){.fd = file, .addr = (uintptr_t)at, .len = (uint32_t)bytes, .off = (uint64_t)from};
}

bool ring_begin_read(struct ring *ring, int file, void *at, size_t bytes, off_t from) {
    struct io_uring_sqe entry = read_of(file, at, bytes, from);
    entry.opcode = IORING_OP_READ_FIXED;
    return begin(ring, &entry);
}

bool ring_begin_plain_read(struct ring *ring, int file, void *at, size_t bytes, off_t from) {
    struct io_uring_sqe entry = read_of(file < 0 ? 0 : file, at, bytes, from);
    entry.opcode = IORING_OP_READ;
    if (file < 0) entry.flags = (uint8_t)IOSQE_FIXED_FILE;
    return begin(ring, &entry);
}

ssize_t ring_end_read(struct ring *ring) {
    uint32_t *head = word_at(ring->completions, ring->head_at), *tail = word_at(ring->completions, ring->completed_at);
    while (__atomic_load_n(tail, __ATOMIC_ACQUIRE) == *head) {
        long status = ring_call(SYS_io_uring_enter, ring->fd, 0, 1, IORING_ENTER_GETEVENTS, NULL, 0);
        if (status < 0 && errno != EINTR) return -errno;
    }
    const struct io_uring_cqe *results = (const void *)((const uint8_t *)ring->completions + ring->results_at);
    ssize_t result = results[*head & *word_at(ring->completions, ring->completion_mask_at)].res;
    __atomic_store_n(head, *head + 1, __ATOMIC_RELEASE);
    return result;
}
