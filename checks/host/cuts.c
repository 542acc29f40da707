/*
 * host/preload/remote.c as a library for Python (cut_cases.py): one client of a host.
 */
#define _GNU_SOURCE
#include "remote.h"
#include "trouble.h"

static struct remote remote = REMOTE_CLOSED;

/* (The library marks its descriptors and counts what it closes; here nothing needs it.) */
int sharing_own(int descriptor);
int sharing_own(int descriptor) { return descriptor; }
void devices_closed(void);
void devices_closed(void) {}

int cuts_connect(const char *path);
int cuts_connect(const char *path) { return (int)remote_connect(&remote, path); }

void cuts_disconnect(void);
void cuts_disconnect(void) { remote_disconnect(&remote); }

/* The buffer for pages, the file of frames, and whether it isn't known what a lend has given. */
void *cuts_buffer(void);
void *cuts_buffer(void) { return remote.pages; }

int cuts_frames(void);
int cuts_frames(void) { return remote.frames; }

bool cuts_is_unknown(void);
bool cuts_is_unknown(void) { return remote.session.unknown; }

/* The lender's calls. A loan is its slot and its frame. */
int cuts_ask(void);
int cuts_ask(void) {
    struct window_lender lender = remote_lender(&remote);
    return lender.ask(lender.opaque, NULL, NULL, NULL, 0, NULL);
}

int cuts_lend(size_t count, uint64_t *slots, uint32_t *frames);
int cuts_lend(size_t count, uint64_t *slots, uint32_t *frames) {
    const uint32_t pages[WINDOW_BATCH] = {0};
    struct window_loan loans[WINDOW_BATCH];
    struct window_lender lender = remote_lender(&remote);
    int cause = lender.lend(lender.opaque, pages, count, loans);
    for (size_t i = 0; cause == 0 && i < count; i++) slots[i] = loans[i].slot, frames[i] = loans[i].frame;
    return cause;
}

int cuts_release(const uint64_t *slots, size_t count);
int cuts_release(const uint64_t *slots, size_t count) {
    struct window_lender lender = remote_lender(&remote);
    return lender.release(lender.opaque, slots, count);
}
