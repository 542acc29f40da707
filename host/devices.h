/*
 * What may write to a process's pages by their physical addresses: files opened with O_DIRECT or of FUSE and the like, buffers registered with
 * io_uring, and devices that are given to a guest (VFIO, vDPA). No guard in the process's page tables holds that up.
 */
#ifndef HOST_DEVICES_H
#define HOST_DEVICES_H

#include <stdbool.h>
#include <stddef.h>
#include <stdint.h>

enum devices {
    DEVICES_NONE,
    DEVICES_READ,      /* files by O_DIRECT or the like, which calls of the C library read: these are seen, and so is their end */
    DEVICES_PIN_PAGES, /* some pages, at times that nobody knows: the kernel refuses to move these */
    DEVICES_WRITE_ALL  /* all of a guest's memory, at any time; or it isn't known that what they write to is pinned */
};

/* Whether what is opened by this path, with these flags of open(2), may be a device: then devices_open is called after it was opened. */
bool devices_may_be(const char *path, int flags);
/* Whether reads of a file that was opened without O_DIRECT may pin pages, too: it isn't known that its file system has them in a cache. */
bool devices_pin_plainly(int file);
/* What reads of a file may do that are made by others than the thread that asks for them, as by io_uring. */
enum devices devices_of_file(int file);
/* What an ioctl(2) asks for. `with` is what it is called with. */
enum devices devices_of_request(unsigned long request, const void *with);
/* Leaves descriptors of this process out of what is looked at: those that no call of the monitor uses. To be called before any look. */
void devices_leave_out(bool (*are)(int descriptor));
/* The requests for which that isn't nothing, as many as are returned. */
size_t devices_requests(uint32_t requests[], size_t most);
/* What the process's descriptors may do, also those that came by a socket. The worst of them. */
enum devices devices_open(void);
/* Looks at the descriptors of another process. Returns false if they can't be seen. */
bool devices_of_process(unsigned long long process, enum devices *devices);
/*
 * As devices_open. It takes some microseconds if no descriptor was opened or closed since the last call of either, and some more for each
 * io_uring. What a call past the C library opened in the place of what another one closed is seen by devices_open alone.
 */
enum devices devices_still_open(void);
/* Notes that the process may call io_submit from now on; and that it may have an io_uring, even if there is no descriptor of one. */
void devices_submit(void);
void devices_make_ring(void);
/* From now on each call of io_setup and io_uring_setup is noted so before it is made, and what is registered with an io_uring isn't asked. */
void devices_watch(void);
/* Notes that a descriptor was closed. */
void devices_closed(void);

#endif
