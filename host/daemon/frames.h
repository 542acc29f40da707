/*
 * The file of a domain's frames: frame n is the 4,096 bytes at 4096 n of it.
 *
 * Clients map it and read it at any time, so what is promised of it holds at any time:
 * - no client can write to it: clients get a descriptor that is open for reading alone, and its mode (0400) keeps other users from
 *   opening it again for writing;
 * - each client has an open file description of its own, so the flags and the offset that it sets are its own;
 * - it keeps its size, since it is sealed against shrinking and growing;
 * - memory is given back to the system only of frames that the library says are free (punching.h).
 */
#ifndef HOST_FRAMES_H
#define HOST_FRAMES_H

#include "lender/bus.h"
#include <pthread.h>

struct frames {
    int file;    /* open for reading and writing; the host's alone */
    uint8_t *at; /* all frames, mapped shared */
    uint32_t count;
    _Atomic uint64_t *in_use; /* a bit for each frame: a slot has it */
    _Atomic uint64_t *listed; /* a bit for each frame: it became free, and may have memory that is to be given back */
    atomic_uint used;         /* how many are in use */
    atomic_uint waiting;      /* how many are listed */
    /*
     * Held while the library may lend, until the bits in `in_use` say what it lent, and held while memory is given back. Only a lend
     * takes a frame that is free. All other calls of the library touch no frames but those that slots have, whose bits are set.
     * So a frame whose bit is clear under the lock stays free, and nobody else touches it, until the lock is given back.
     */
    pthread_mutex_t lending;
    atomic_bool is_refused; /* while a lend waited the system refused to give memory back: the lend gets nothing */
    atomic_bool is_wanted;  /* a lend waits for the lock: the thread that gives memory back calls frames_free_again */
    int free_again;         /* an eventfd, which is readable then */
    int needed;             /* one for that thread: a lend waits until no frame is listed */
    struct bus bus;         /* frames for which the system had no memory */
};

#define FRAMES_NONE                                                                                                              \
    { .file = -1, .at = (void *)-1, .lending = PTHREAD_MUTEX_INITIALIZER, .free_again = -1, .needed = -1, .bus = BUS_NONE }

/* Makes a file with memory for `count` frames. Returns false if the system refuses, after it has printed why. */
bool frames_make(struct frames *frames, uint32_t count);
void frames_free(struct frames *frames);
/* Opens the file for one client, for reading alone. Returns NOTHING if the system refuses. */
int frames_open(const struct frames *frames);

/* What a call of the library may lend. */
enum frames_lend {
    LEND_WAITS,   /* it has to wait until `free_again` is readable: memory is being given back, or is to be */
    LEND_NOTHING, /* nothing: the system refused to give memory of free frames back, or to map a frame of `bus` */
    LEND_ANY      /* any free frame: none of them has memory that was another page's */
};

/*
 * Before a call of the library that may lend. A device of a client may be reading the memory of a frame that became free, so
 * another page's bytes must not be written to it. frames_end_lend follows unless the call has to wait.
 */
enum frames_lend frames_begin_lend(struct frames *frames);
/* A slot has frame `frame` now. Between frames_begin_lend and frames_end_lend. */
void frames_lent(struct frames *frames, uint32_t frame);
void frames_end_lend(struct frames *frames);
/* Maps the file where frames have other memory (bus.h). What was lent there has been taken back. Returns false if the system refuses. */
bool frames_map_again(struct frames *frames);
/* Wakes a lend that waits for the lock, which is free again. */
void frames_free_again(struct frames *frames);

/*
 * Lists frames whose memory is to be given back to the system. No slot has them any more, and the call of the library that freed them
 * has ended. Numbers above the last frame (PAGESHARE_NO_FRAME) are skipped.
 */
void frames_freed(struct frames *frames, const uint32_t *list, size_t count);
/* Lists the frames of [first, end), which may be in use meanwhile. */
void frames_list(struct frames *frames, uint32_t first, uint32_t end);
/* Takes them off the list. */
void frames_unlist(struct frames *frames, uint32_t first, uint32_t end);

/* The bytes that the file takes of the system's memory. */
uint64_t frames_memory(const struct frames *frames);

/*
 * A buffer of `bytes` that the host and one client share: the client writes pages to it, and the host reads them by pread before it
 * looks at them. (A client can take memory out of its buffer. A mapping would raise SIGBUS there if the system has no other.) Returns
 * the client's descriptor, and by which the host reads, or NOTHING.
 */
int frames_buffer(size_t bytes, int *reads);

#endif
