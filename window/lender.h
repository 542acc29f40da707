/*
 * What lends frames to windows (window.h): a domain in the same process, or a host in another one.
 *
 * Frame n is the 4,096 bytes at 4096 n of the frames' file. Windows map frames for reading and writing, privately, so no window
 * ever changes the file. The lender gives the memory of free frames back to the system (trims) by itself.
 */
#ifndef PAGESHARE_WINDOW_LENDER_H
#define PAGESHARE_WINDOW_LENDER_H

#include <stdbool.h>
#include <stddef.h>
#include <stdint.h>

/* Bytes of a page and of a frame, and most pages in one call. */
#define WINDOW_PAGE_BYTES 4096u
#define WINDOW_BATCH 128u

/* In place of a frame's number: the page wasn't lent. */
#define WINDOW_NO_FRAME UINT32_MAX

/* One more than the greatest number of a frame. */
#define WINDOW_FRAMES_MOST (1u << 26)

/* One more than the greatest of a slot's upper 32 bits, and of its lower ones. */
#define WINDOW_SLOT_TOPS 64u
#define WINDOW_SLOT_RESTS (1u << 26)

/*
 * What became of a page that was to be lent. The slot names the page to the lender, and means nothing to a window. If it isn't one
 * (window_is_slot), that is a failure of the lender (EPROTO), and it is never released.
 */
struct window_loan {
    uint32_t frame;
    uint64_t slot;
};

static inline bool window_is_slot(uint64_t slot) { return slot >> 32 < WINDOW_SLOT_TOPS && (uint32_t)slot < WINDOW_SLOT_RESTS; }

/*
 * The calls are made by the thread that calls windows_look, windows_attach and windows_detach, and by no other. No lock is held and
 * nothing is guarded while they run, so they may take long. Each returns 0, or an errno, and then nothing was released as far as windows
 * go. Nor was anything lent after ENOTCONN or EINVAL; after any other errno of `lend` that isn't known, and its pages stay as they are until
 * windows_taken_up or windows_detach. After ENOTCONN, EPIPE, ECONNRESET or ETIMEDOUT nothing is asked until the next look; after any other
 * errno the look goes on with the next batch.
 *
 * Pages are numbered through all windows of a process. A page's number may be another page's when its window was freed.
 */
struct window_lender {
    void *opaque;
    int frames; /* descriptor of the frames' file, sealed against shrinking, open for reading at least; stays the lender's */
    uint32_t frame_count; /* 1 to WINDOW_FRAMES_MOST */
    uint32_t salt;        /* of fingerprints: the same for all lenders of one domain, and never the domain's secret salt */
    unsigned char (*pages)[WINDOW_PAGE_BYTES]; /* buffer for WINDOW_BATCH pages */

    /*
     * Writes 1 to seen[i] if another page with fingerprints[i] was asked about lately, or the lender knows a frame in use with
     * it; else 0. If passing[i] is true, the lender needn't note the question: no other page needs to find page i by it.
     */
    int (*ask)(void *opaque, const uint32_t *pages, const uint64_t *fingerprints, const bool *passing, size_t count,
               unsigned char *seen);

    /* Lends `count` pages, at most WINDOW_BATCH, whose bytes are in the buffer: loans[i] is of pages[i]. */
    int (*lend)(void *opaque, const uint32_t *pages, size_t count, struct window_loan *loans);

    /* Gives slots up, at most WINDOW_BATCH, whose frames no window shows any more. */
    int (*release)(void *opaque, const uint64_t *slots, size_t count);
};

#endif
