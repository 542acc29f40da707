/*
 * The thread of a process that shares: it connects to the host, looks at the windows, and looks more often while much is found.
 * Beside it, what sharing.c has for this thread alone.
 */
#ifndef HOST_CONNECTION_H
#define HOST_CONNECTION_H

#include "devices.h"
#include "window.h"

/* Whether PAGESHARE_SOCKET names a host. */
bool connection_is_wanted(void);
/* Reads the environment, before the thread begins. Children of the process get no preloaded library. */
void connection_prepare(void);
void *connection_thread(void *unused);

/* The set that windows are made in. */
void ranges_use(struct windows *set);
/* Whether transfers by O_DIRECT are under way that began before there was a set: it doesn't know of them. */
bool ranges_have_early(void);
void ranges_open(unsigned flags);
enum devices ranges_devices(void);
/* Devices that were found to be open. */
void ranges_found(enum devices devices);
/* Whether a userfaultfd of the monitor's own watches memory of a window: then nothing there may be mapped anew. */
bool ranges_are_watched(void);
/*
 * The next part of a window from `*at` on gets memory of its own and leaves the window, and `*at` becomes its end. Its range stays offered.
 * Returns false if there is none. Where the result isn't WINDOW_OK some of its pages may show frames still.
 */
bool ranges_bring_home(uint8_t **at, struct window_result *result);
/* Windows end of which all pages have left, and their ranges may become windows again. Returns how one failed, or WINDOW_OK: WINDOW_PINNED where
 * copies have to stay over frames. */
struct window_result ranges_end_windows(void);
/* Lending ends for good, since something is missing. */
void ranges_refuse(const char *why);

#endif
