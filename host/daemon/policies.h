/*
 * Memory policies of the file of frames.
 *
 * mbind(2) of a mapping of a file in memory sets the file's policy, which all processes that have the file share. It asks for no
 * right to write, and a private mapping will do. So a client can say from which memory nodes frames come, and each frame may have a
 * policy of its own, whose memory the kernel keeps until the file ends. The host takes all policies off the file, once a second at
 * most: a pass over all frames, part by part.
 */
#ifndef HOST_POLICIES_H
#define HOST_POLICIES_H

#include "frames.h"
#include "seldom.h"

/* Zeros to begin with. One thread has it. */
struct policies {
    uint32_t next;    /* the frame where the next part begins; 0: no pass is under way */
    uint32_t part;    /* how many frames it has */
    uint64_t next_ns; /* when the next pass begins */
    bool are_none;    /* this kernel has no memory policies */
    struct seldom trouble;
};

/*
 * Takes policies off a part of the frames, and off more for a millisecond if no lend waits, if a pass is under way or due. Returns whether
 * one is under way after it.
 */
bool policies_clear(struct policies *policies, struct frames *frames);

#endif
