/*
 * Connections and processes of one domain's clients. What a client sends is decided by the library; here bytes and descriptors are
 * moved, and work for one client is bounded:
 * - a message has a most length, and of one client a few are taken in a turn, and so many of its process in a second;
 * - a reply that can't be sent at once ends the connection; nothing ever waits for a client;
 * - a client that sends a descriptor is disconnected (closing.h);
 * - of one process and of one user so many connections are taken in a second, and of all so many in a tenth of it;
 * - slots are released when the client's process has ended, never at a connection's end, and some at a time.
 */
#ifndef HOST_CLIENTS_H
#define HOST_CLIENTS_H

#include "domain.h"

/* What an event of the domain's poll belongs to. */
enum event_of { EVENT_WAKE, EVENT_LISTENER, EVENT_STATUS, EVENT_SOCKET, EVENT_PROCESS, EVENT_LEND };
union event_key {
    uint64_t key;
    struct {
        uint32_t generation;
        uint16_t index;
        uint16_t of; /* an enum event_of */
    };
};

bool poll_add(const struct domain *domain, int descriptor, union event_key key);

/* Takes a connection that waits at the listener. */
void clients_accept(struct domain *domain);
/* A client's socket has something, or its other end is closed. */
void clients_readable(struct domain *domain, union event_key key);
/* Lends that waited while memory was given back are served. */
void clients_lend_again(struct domain *domain);
/* A client's process has ended. */
void clients_ended(struct domain *domain, union event_key key);
/* Releases some slots of one client whose process has ended. */
void clients_release_some(struct domain *domain);
/* Each tenth of a second: reads of paused clients again, and ends connections that have said nothing. */
void clients_tick(struct domain *domain);
/* The system has no descriptor or memory to send a status by: nobody is sent one until the next tick. */
void clients_defer_status(struct domain *domain);
void clients_free(struct domain *domain);
/* An entry that is free. */
struct client clients_free_entry(uint32_t generation);

/* Sends the domain's status to the connections that wait for it. */
void status_send(struct domain *domain);

#endif
