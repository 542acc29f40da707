/*
 * A host in another process as a lender of windows (window/lender.h): one connection, its descriptors and its buffer.
 *
 * All calls are made by one thread. A call waits at most some seconds for the host; then the connection counts as broken.
 */
#ifndef HOST_REMOTE_H
#define HOST_REMOTE_H

#include "lender.h"
#include "pageshare_host.h"
#include "pageshare_window.h"
#include <stdbool.h>
#include <sys/types.h>

struct remote {
    int socket;        /* NOTHING if there is no connection */
    int frames;        /* the file of frames, open for reading; stays open when the connection breaks */
    int faults_device; /* /dev/userfaultfd, or NOTHING if the host had none to give */
    unsigned char (*pages)[WINDOW_PAGE_BYTES];
    uint32_t frame_count, salt;
    uint32_t client_cpu;                     /* the percentage of one processor that the host grants, or 0: it says nothing */
    ino_t file;                              /* of the frames' file, so that another host's is known */
    struct pageshare_window_session session; /* what is said next, and what it has of slots */
};

/* What a connection is. */
enum remote_found {
    REMOTE_NONE,    /* no host, or one that doesn't answer; errno has the cause */
    REMOTE_RESUMED, /* the session before, with its slots */
    REMOTE_NEW      /* another session: no slot of before counts */
};

#define REMOTE_CLOSED                                                                                                            \
    { .socket = -1, .frames = -1, .faults_device = -1 }

/* Connects to the host at a path. If it returns REMOTE_NEW, attach the lender again. */
enum remote_found remote_connect(struct remote *remote, const char *path);
/* Ends the connection; frames that are mapped stay, and so does what remote_connect takes a session up by. */
void remote_disconnect(struct remote *remote);
/* The lender; `remote` stays where it is meanwhile. */
struct window_lender remote_lender(struct remote *remote);

#endif
