/*
 * Sharing in a process of a virtual machine monitor: which of its ranges are windows, and what becomes of these when the monitor does
 * something that a window can't bear. A thread connects to the host and looks at them.
 *
 * All calls are right on any thread at any time, and in a process that shares nothing. None ends the process.
 */
#ifndef HOST_SHARING_H
#define HOST_SHARING_H

#include "devices.h"
#include "window.h"

/* Whether a part of the range may be a window's, and the caller isn't this library itself. Cheap if there is no window near. */
bool sharing_meets(const void *at, size_t bytes);

/* The monitor offers a range (MADV_MERGEABLE). It becomes a window soon, if it can be one. Returns whether sharing is wanted at all. */
bool sharing_offer(void *at, size_t bytes);

/* The content of a range is given up, by advice of madvise(2). Returns 0, or -1 with errno as the system would. */
int sharing_discard(void *at, size_t bytes, int advice);

/* What is said of a range, and concerns no content: MADV_DONTFORK and the like. Returns 0, or -1 with errno. */
int sharing_advise(void *at, size_t bytes, int advice);

/* The monitor says that a range may be huge pages (MADV_HUGEPAGE), or that it may not. Returns 0, or -1 with errno. */
int sharing_say_huge(void *at, size_t bytes, bool may);

/* What became of a range that was to leave its windows. */
enum sharing_left {
    SHARING_REFUSED, /* the system had no memory for it; errno says so. The range must stay as it is */
    SHARING_LEFT,    /* it is the monitor's alone */
    SHARING_KEPT     /* nothing is lent of it any more. Devices may have pinned pages, whose copies stay over frames: it may be
                        protected, locked and unmapped, but not moved */
};
/* A range leaves its windows with its content. `why` is printed. */
enum sharing_left sharing_leave(void *at, size_t bytes, const char *why);

/*
 * Makes a call of the system that puts something else, or nothing, in the place of a range, while nothing is held there. Where the call
 * returns something else than -1 the range has left its windows. Returns what the call does; or -1 with errno, and no call was made.
 */
long sharing_replace(void *at, size_t bytes, long (*call)(void *with), void *with);

/*
 * Lending ends for good, and each page gets memory of its own. `why` is printed, once. Returns false, with errno, if the system has no
 * memory for that: nothing is lent any more, but pages show frames still.
 */
bool sharing_end(const char *why);

/*
 * A request is about to be made by which a userfaultfd of the monitor's own watches memory of a window. Nothing is lent from now on, until no
 * userfaultfd does. `is_of_missing`: each page gets memory of its own first; otherwise it may show a frame until sharing_protect. Returns false,
 * with errno, if the system has no memory for that: then the request isn't to be made. `*is_begun`: sharing_watch_made is to be called after it.
 */
bool sharing_watch(bool is_of_missing, bool *is_begun);
void sharing_watch_made(void);
/* Writes to these pages are about to be guarded by such a userfaultfd: those that are a window's get memory of their own. Returns as above. */
bool sharing_protect(void *at, size_t bytes);

/* Devices may write from now on. Returns false, with errno, if lending would have to end for them and can't. */
bool sharing_devices(enum devices devices);

/* Transfers by O_DIRECT between files and the monitor's memory that are under way, of one call. */
struct sharing_transfers {
    bool is_early; /* they began before there were windows */
    struct windows_transfer are;
};
static inline bool sharing_are_transfers(const struct sharing_transfers *transfers) {
    return transfers->is_early || transfers->are.first > 0 || transfers->are.elsewhere > 0;
}
/* A call by O_DIRECT with these buffers is about to begin, and has ended. */
void sharing_transfers_begin(struct sharing_transfers *transfers, const struct iovec *buffers, int count);
void sharing_transfers_end(const struct sharing_transfers *transfers);

/* Whether the caller is this library: then a call goes to the system as it is. */
bool sharing_is_inside(void);
/* Whether that thread of the process may be amid a call of the library that has the library's lock, or does nothing else. */
bool sharing_is_inside_of(int thread);
/* All that the calling thread does is this library's. */
void sharing_stay_inside(void);

/* The library keeps a list of its descriptors below this number. */
enum { DESCRIPTORS_MOST = 65536 };

/* A descriptor that the library opened. It gets a high number, which is returned, so that no file of the monitor takes its place where
 * the monitor closes what it doesn't know. */
int sharing_own(int descriptor);
/* Whether a descriptor is the library's, and this is the process that opened it. */
bool sharing_owns(int descriptor);
/* The library has closed one. */
void sharing_disown(int descriptor);

#endif
