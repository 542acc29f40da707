#define _GNU_SOURCE
#include "closing.h"
#include "trouble.h"
#include <fcntl.h>
#include <pthread.h>
#include <sys/socket.h>

#ifndef SO_PASSRIGHTS
#define SO_PASSRIGHTS 83 /* Linux 6.16 */
#endif

/* With more sockets than these to close no connection is taken. The pipe can hold 16,384 numbers: that is more than these and a
 * domain's clients (twice CLIENTS_MOST) together. */
enum { WAITING_MOST = 1024 };

bool closing_refuses_descriptors(int listener) {
    const int no = 0;
    return setsockopt(listener, SOL_SOCKET, SO_PASSRIGHTS, &no, sizeof no) == 0;
}

/* The thread. It ends when the pipe's other end is closed. */
static void *close_all(void *of) {
    struct closing *closing = of;
    int from = closing->from, socket;
    for (ssize_t got; (got = read(from, &socket, sizeof socket)) != 0;) {
        if (got != sizeof socket) continue; /* (a signal) */
        close(socket);
        atomic_fetch_sub(&closing->waiting, 1);
    }
    close(from);
    return NULL;
}

bool closing_start(struct closing *closing) {
    int ends[2];
    pthread_t thread;
    if (pipe2(ends, O_CLOEXEC) != 0) return trouble("a pipe");
    *closing = (struct closing){.is_needed = true, .from = ends[0], .to = ends[1]};
    /* A number that finds no free place would be closed by the thread that writes it: it must never wait. */
    bool good = fcntl(closing->to, F_SETFL, O_NONBLOCK) == 0 || trouble("a pipe");
    int cause = good ? pthread_create(&thread, NULL, close_all, closing) : 0;
    if (good && cause == 0) return pthread_detach(thread) == 0;
    if (cause != 0) errno = cause, trouble("a thread that closes sockets");
    close(closing->from);
    close(closing->to);
    *closing = (struct closing)CLOSING_NONE;
    return false;
}

void closing_end(struct closing *closing) {
    if (closing->to >= 0) close(closing->to);
    closing->to = NOTHING;
}

void closing_close(struct closing *closing, int socket) {
    if (closing->to >= 0) {
        atomic_fetch_add(&closing->waiting, 1);
        if (write(closing->to, &socket, sizeof socket) == sizeof socket) return;
        atomic_fetch_sub(&closing->waiting, 1); /* (the system gave the pipe less space than usual) */
    }
    close(socket);
}

bool closing_is_full(struct closing *closing) { return atomic_load(&closing->waiting) > WAITING_MOST; }

ssize_t closing_receive(const struct closing *closing, int socket, void *packet, size_t room) {
    struct iovec part = {.iov_base = packet, .iov_len = room};
    struct msghdr message = {.msg_iov = &part, .msg_iovlen = 1};
    if (!closing->is_needed) return recv(socket, packet, room, MSG_DONTWAIT);
    ssize_t got = recvmsg(socket, &message, MSG_DONTWAIT | MSG_PEEK);
    if (got < 0) return got;
    if ((message.msg_flags & MSG_CTRUNC) != 0)
        return (errno = EPERM, NOTHING); /* there is no space for descriptors, so there are some */
    return recv(socket, packet, room, MSG_DONTWAIT);
}
