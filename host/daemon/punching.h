/*
 * The memory of free frames goes back to the system. A thread of its own gives it back, since a client that maps the file of frames
 * many times makes each such call take long.
 *
 * - Frames that became free are listed (frames_freed) and given back in runs, within a twentieth of the time, by the clock. But
 *   no pause is longer than a second. A lend waits until none is listed, since a device may be reading the memory of one for a page that showed
 *   it. While one waits there is no pause. If the system refuses to give a frame's memory back, nothing is lent until it does.
 * - Free frames get memory when a client reads them. They are looked for when the file has more memory than frames that are in use or
 *   listed, some at a time.
 * - The thread takes memory policies off the file, too (policies.h).
 */
#ifndef HOST_PUNCHING_H
#define HOST_PUNCHING_H

#include "frames.h"
#include "policies.h"
#include "seldom.h"

struct punching {
    struct frames *frames;
    int end; /* an eventfd, which is readable when the thread must end; NOTHING if there is no thread */
    atomic_bool must_end;
    pthread_t thread;
    uint32_t next_listed, next_looked_at; /* where the next frames are looked for */
    struct policies policies;
    struct seldom trouble;
};

#define PUNCHING_NONE                                                                                                            \
    { .end = -1 }

/* Begins to give back memory of these frames, which stay where they are until punching_end. Returns false if the system refuses,
 * after it has printed why. */
bool punching_start(struct punching *punching, struct frames *frames);
void punching_end(struct punching *punching);
/* The thread's processor time. */
uint64_t punching_ns(const struct punching *punching);

#endif
