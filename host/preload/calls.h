/*
 * What the library does before a call of the system is made that lets devices write to memory, or that windows can't bear. The functions that
 * take the C library's place call it (preload.c, aio.c, raw_calls.c), and so does the filter (filter.c), for calls that are made otherwise.
 */
#ifndef HOST_CALLS_H
#define HOST_CALLS_H

#include <stdbool.h>
#include <stddef.h>
#include <stdint.h>
#include <sys/types.h>
#include <sys/uio.h>

/*
 * io_setup; io_uring_setup; io_uring_register with what it is to do; a request of ioctl with what it is made with. Returns false, with errno,
 * if lending would have to end for the call and can't: then it isn't to be made. `*is_followed`: once it has been made, calls_request_made is
 * to be called.
 */
bool calls_prepare_context(void);
bool calls_prepare_ring(void);
bool calls_prepare_registering(uint32_t what);
bool calls_prepare_request(unsigned long request, const void *with, bool *is_followed);
/* A request was made of a descriptor, and returned this. errno stays as it is. */
void calls_request_made(int descriptor, unsigned long request, const void *with, long status);

/*
 * What io_uring_register does that matters: buffers and files that are registered, as many as are returned. A word that names the ring among the
 * registered ones has one bit more.
 */
enum { CALLS_REGISTERING_MOST = 8 };
size_t calls_registering(uint32_t what[CALLS_REGISTERING_MOST]);
static const uint32_t CALLS_BY_RING = 1u << 31;

/* The requests of ioctl that matter, as many as are returned. */
enum { CALLS_REQUESTS_MOST = 24 };
size_t calls_requests(uint32_t requests[CALLS_REQUESTS_MOST]);

/*
 * Follows advice of process_madvise, if it is on a window's memory. Returns false if it isn't, and then nothing was done. Otherwise `*status`
 * is what the call returns, with errno.
 */
bool calls_advise(int process, const struct iovec *buffers, size_t count, int advice, unsigned flags, ssize_t *status);

#endif
