/* What a call of the monitor is about: its file, and the buffers in the monitor's memory. */
#ifndef HOST_BUFFERS_H
#define HOST_BUFFERS_H

#include <limits.h>
#include <stdbool.h>
#include <stddef.h>
#include <sys/uio.h>

/* More buffers, and fewer than none, the system refuses. */
enum { BUFFERS_MOST = IOV_MAX };

/* Whether a buffer may meet a window at all. Cheap, and takes no lock. */
bool buffers_may_meet(void);
/* Copies what a call is made with. Returns false if it isn't all there: then the system refuses the call with EFAULT. */
bool buffers_read(void *to, const void *from, size_t bytes);
/* Copies the array of a call's buffers. Returns false if it isn't all there: then the system refuses the call with EFAULT. */
bool buffers_copy(struct iovec to[BUFFERS_MOST], const struct iovec *from, size_t count);
/* Whether one of the buffers meets a window. */
bool buffers_meet(const struct iovec *buffers, size_t count);
/* Whether a call of a file may pin pages: it is open with O_DIRECT, or its file system may do that without. errno stays as it is. */
bool buffers_are_pinned_by(int file);

#endif
