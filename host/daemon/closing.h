/*
 * Closing the sockets of clients without waiting.
 *
 * A client can pass descriptors to a socket of the host. The host wants none, but the kernel closes them if the socket is closed
 * or their message is received. Closing some descriptors takes as long as their owner likes, for example a TCP socket with SO_LINGER
 * and data that nobody takes. Two ways keep the domain's thread from that:
 * - Linux 6.16 and later: the listener refuses descriptors (SO_PASSRIGHTS), and each connection inherits that. The sender gets EPERM.
 * - before: no message with descriptors is ever received, only looked at. Sockets are closed by a thread that does nothing else.
 */
#ifndef HOST_CLOSING_H
#define HOST_CLOSING_H

#include <stdatomic.h>
#include <stdbool.h>
#include <stddef.h>
#include <stdint.h>
#include <sys/types.h>

struct closing {
    bool is_needed;      /* the kernel can't refuse descriptors */
    int to, from;        /* a pipe of the descriptors that are to be closed; NOTHING if it isn't needed */
    atomic_uint waiting; /* how many are in the pipe or being closed */
};

#define CLOSING_NONE                                                                                                             \
    { .to = -1, .from = -1 }

/* Makes a socket refuse descriptors, before it listens. Returns false if the kernel can't. */
bool closing_refuses_descriptors(int listener);

/* Begins to close sockets by a thread. `closing` stays where it is until the process ends. Returns false if the system refuses,
 * after it has printed why. */
bool closing_start(struct closing *closing);
/* The thread ends when it has closed what waits. Nobody waits for it. */
void closing_end(struct closing *closing);

/* Closes a client's socket, soon. */
void closing_close(struct closing *closing, int socket);
/* Whether so many sockets wait to be closed that no connection should be taken. */
bool closing_is_full(struct closing *closing);

/*
 * Receives a packet as recv(2) with MSG_DONTWAIT does, and takes no descriptor. One that comes with descriptors fails with EPERM and
 * stays in the socket, which is to be closed then.
 */
ssize_t closing_receive(const struct closing *closing, int socket, void *packet, size_t room);

#endif
