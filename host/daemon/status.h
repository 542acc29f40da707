/*
 * What a domain reports of itself, for operators: on a socket of its own beside the domain's (SOCKET.status). Only the host's user
 * and root may open it, since totals show a client what others have.
 *
 * Each connection gets one message: a struct status_totals and its clients, and then the connection ends. Host and reader are the
 * same program; a version keeps different builds apart.
 */
#ifndef HOST_STATUS_H
#define HOST_STATUS_H

#include "counts.h"
#include "settings.h"

#define STATUS_SUFFIX ".status"
enum { STATUS_VERSION = 7, STATUS_CLIENTS_MOST = 1024, STATUS_DEVICES_UNKNOWN = 4 };

struct status_totals {
    uint64_t version;
    char domain[NAME_MOST];
    uint64_t clients;         /* processes whose slots the domain has */
    uint64_t listed;          /* how many of them follow, at most STATUS_CLIENTS_MOST */
    uint64_t lent_pages;      /* slots in use */
    uint64_t frames;          /* frames in use */
    uint64_t frames_most;     /* frames of the domain */
    uint64_t lent_most;       /* slots of the domain */
    uint64_t shared_pages;    /* slots whose frame another slot has too */
    uint64_t reclaimed_pages; /* slots less frames */
    uint64_t frame_bytes;     /* memory of the file of frames */
    uint64_t free_bytes;      /* the part of it that frames have which no slot has */
    uint64_t host_bytes;      /* memory of the host's own, of all domains */
    uint64_t messages;        /* taken of clients */
    uint64_t pages_asked;     /* pages that clients asked about */
    uint64_t lends;           /* pages that were lent */
    uint64_t releases;        /* pages that were released */
    uint64_t refused;         /* pages that found no slot or no frame */
    uint64_t refused_by_lent; /* those of them for which all slots were in use */
    uint64_t faults;          /* clients that sent what is no message */
    uint64_t turned_away;     /* connections that weren't taken: untrusted peers, or too many clients */
    uint64_t machine_ns;      /* processor time of the domain's threads */
    uint64_t uptime_ns;
    /* What the reader finds, and not the host, which may not look there: of all clients that are listed, and what is left of the gain. */
    uint64_t zero_bytes, table_bytes, mapping_bytes, library_bytes;
    int64_t net_bytes;
};

struct status_client {
    uint64_t pid, uid;
    uint64_t connected; /* 1, or 0: its process lives, and its connection ended */
    uint64_t lent_pages;
    uint64_t messages;
    uint64_t lends;
    /* What the reader finds, and not the host, which may not look there: */
    uint64_t devices;                                  /* an enum devices, or STATUS_DEVICES_UNKNOWN */
    uint64_t table_bytes;                              /* page tables of the process, or 0 */
    uint64_t zero_bytes, mapping_bytes, library_bytes; /* by its counts, but no more than can be */
    uint64_t looks_ns;                                 /* processor time of the library's thread, or 0 */
    struct counts counts;                              /* what the process says of its windows, or zeros */
};

/* Prints what the domain at `socket` reports, in the form asked for; with `watch` each second until the reader ends it. Returns the
 * process's status: 0, or 1 if the domain can't be asked. */
int status_show(const char *socket, enum status_form form, bool watch);

/* Asks a domain for its totals alone. Returns false, with errno, if it can't be asked. */
bool status_totals_of(const char *socket, struct status_totals *totals);

#endif
