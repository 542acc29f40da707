#define _GNU_SOURCE
#include "clients.h"
#include "trouble.h"
#include <poll.h>
#include <stdlib.h>
#include <sys/epoll.h>
#include <sys/eventfd.h>
#include <sys/random.h>
#include <sys/socket.h>
#include <sys/syscall.h>
#include <unistd.h>

#ifndef SO_PEERPIDFD
#define SO_PEERPIDFD 77 /* Linux 6.5 */
#endif

enum {
    TURN_MESSAGES = 4,      /* of one client in one turn */
    RELEASED_AT_ONCE = 512, /* slots of a process that has ended, in one turn */
    /* An old one, and the one that takes its session up. Once that one's hello is heard the old one has ended, and with two of them there is no
     * third whose earlier hello could be heard after it, and take the session back. */
    CONNECTIONS_OF_PROCESS = 2,
    PROCESS_PART = 32,    /* of the connections of a user in a second, how many of one process are taken: one part in so many */
    ACCEPTS_IN_TICK = 50, /* connections that are taken or turned away until the next tick */
    FIRST_PART = 100,     /* a new connection may send one part in so many of its messages of a second until the next tick */
    TICKS_IN_SECOND = 10,
    BUFFER_BYTES = PAGESHARE_HOST_MAX_PAGES * PAGE
};
static const uint64_t connecting_most_ns = 25000000; /* what connections that come and go may take of a tick: a quarter of it */
static const uint64_t silence_ns = UINT64_C(10000000000); /* a peer says hello within 10 seconds */

bool poll_add(const struct domain *domain, int descriptor, union event_key key) {
    struct epoll_event event = {.events = EPOLLIN, .data.u64 = key.key};
    return epoll_ctl(domain->poll, EPOLL_CTL_ADD, descriptor, &event) == 0 || trouble("epoll_ctl");
}

static union event_key key_of(const struct domain *domain, const struct client *client, enum event_of of) {
    union event_key key = {.generation = client->generation};
    key.index = (uint16_t)(client - domain->clients);
    key.of = (uint16_t)of;
    return key;
}

/* The client that an event is of, or NULL if its entry has become another's. */
static struct client *client_of(struct domain *domain, union event_key key) {
    struct client *client = key.index < domain->client_most ? &domain->clients[key.index] : NULL;
    return client && client->state != CLIENT_NONE && client->generation == key.generation ? client : NULL;
}

struct client clients_free_entry(uint32_t generation) {
    return (struct client){.generation = generation, .socket = NOTHING, .process = NOTHING, .buffer = NOTHING};
}

/* Lets an entry go whose session is no more. */
static void forget(struct domain *domain, struct client *client) {
    if (client->socket >= 0) closing_close(&domain->closing, client->socket);
    if (client->process >= 0) close(client->process);
    if (client->buffer >= 0) close(client->buffer);
    if (client->sibling) client->sibling->sibling = NULL;
    *client = clients_free_entry(client->generation + 1);
}

/*
 * A client's connection has ended, by whichever side. A session that has slots stays until its process has ended, and one that has none
 * ends at once. (That may look at each slot of the domain once, and counts as time that connections take.)
 */
static void part(struct domain *domain, struct client *client) {
    uint64_t begin = now_ns();
    if (client->socket >= 0) closing_close(&domain->closing, client->socket);
    client->socket = NOTHING;
    client->state = CLIENT_APART;
    client->waiting_bytes = 0;
    pageshare_host_disconnect(&domain->host, client->session);
    if (pageshare_host_end_empty(&domain->host, client->session) != PAGESHARE_HOST_OK) forget(domain, client);
    domain->connecting_ns += now_ns() - begin;
}

/* ---- connections ---- */

/* A descriptor of the process at the other end, whatever becomes of its number. */
static int process_of(int socket, pid_t pid) {
    int process = NOTHING;
    socklen_t size = sizeof process;
    if (getsockopt(socket, SOL_SOCKET, SO_PEERPIDFD, &process, &size) == 0) return process;
    return (int)syscall(SYS_pidfd_open, pid, 0);
}

static bool has_ended(int process) {
    struct pollfd asked = {.fd = process, .events = POLLIN};
    return poll(&asked, 1, 0) != 0;
}

/* Both are connections of one process: a number is given anew only when the process that had it is no more. */
static bool is_same_process(const struct client *one, const struct client *other) {
    return one->pid == other->pid && !has_ended(one->process) && !has_ended(other->process);
}

/* A peer that could write frames, by opening their file again, isn't taken. */
static bool is_trusted(const struct domain *domain, const struct ucred *peer) {
    if (peer->pid <= 0) return false; /* its process can't be seen from here, so its end couldn't */
    return domain->settings.trust_peers || (peer->uid != 0 && peer->uid != geteuid());
}

/* A free entry for a process, or NULL if there are as many clients, or connections of this process, as there may be. */
static struct client *free_entry(struct domain *domain, pid_t pid) {
    struct client *found = NULL;
    uint32_t others = 0, its = 0;
    for (uint32_t i = 0; i < domain->client_most; i++) {
        struct client *client = &domain->clients[i];
        if (client->state == CLIENT_NONE) found = found ? found : client;
        else if (client->pid == pid) its++;
        else others++;
    }
    return its < CONNECTIONS_OF_PROCESS && (its > 0 || others < domain->settings.clients) ? found : NULL;
}

/* The other connection of a client's process, or NULL. */
static struct client *find_sibling(const struct domain *domain, const struct client *client) {
    for (uint32_t i = 0; i < domain->client_most; i++) {
        struct client *other = &domain->clients[i];
        bool may_be = other != client && other->state != CLIENT_NONE && other->pid == client->pid;
        if (may_be && is_same_process(other, client)) return other;
    }
    return NULL;
}

/* A process may send so many messages until the next tick, by whichever of its connections. */
static void put_budget(struct client *client, uint32_t budget) {
    client->budget = budget;
    if (client->sibling) client->sibling->budget = budget;
}

/* A client that has a session is watched, and meets the other connection of its process. */
static bool watch(struct domain *domain, struct client *client) {
    uint32_t budget = domain->settings.client_rate / FIRST_PART + 1;
    client->state = CLIENT_CONNECTED;
    client->sibling = find_sibling(domain, client);
    if (client->sibling) {
        client->sibling->sibling = client;
        budget =
            client->sibling->state == CLIENT_CONNECTED && client->sibling->budget < budget ? client->sibling->budget : budget;
    }
    put_budget(client, budget);
    return poll_add(domain, client->socket, key_of(domain, client, EVENT_SOCKET)) &&
           poll_add(domain, client->process, key_of(domain, client, EVENT_PROCESS));
}

/* Fills an entry for a connection: with a session, and watched. Returns false if something is refused; the entry is free then. */
static bool enter(struct domain *domain, struct client *client, int socket, const struct ucred *peer) {
    uint8_t name[PAGESHARE_HOST_NAME_BYTES];
    *client = (struct client){.generation = client->generation,
                              .socket = socket,
                              .process = process_of(socket, peer->pid),
                              .pid = peer->pid,
                              .uid = peer->uid,
                              .buffer = NOTHING,
                              .since_ns = now_ns()};
    bool good = (client->process >= 0 && getrandom(name, sizeof name, 0) == sizeof name) ||
                seldom_trouble(&domain->no_connection, "a connection can't be taken");
    good = good && pageshare_host_connect(&domain->host, name, &client->session) == PAGESHARE_HOST_OK;
    if (!good) {
        forget(domain, client);
        return false;
    }
    good = watch(domain, client);
    if (!good) part(domain, client);
    return good;
}

/* Takes connections of a listener, or takes none until the next tick. Returns false if the system refuses. */
static bool hear(const struct domain *domain, int listener, enum event_of of, bool to_it) {
    struct epoll_event event = {.events = to_it ? EPOLLIN : 0, .data.u64 = (union event_key){.of = (uint16_t)of}.key};
    return epoll_ctl(domain->poll, EPOLL_CTL_MOD, listener, &event) == 0;
}

static void be_deaf(struct domain *domain) { domain->is_deaf = hear(domain, domain->listener, EVENT_LISTENER, false); }

void clients_defer_status(struct domain *domain) {
    domain->is_status_deaf = hear(domain, domain->status_listener, EVENT_STATUS, false);
}

/* Counts a connection of `who`, and returns how many there are in this second. Those that find no free place are counted together. */
static uint32_t connects_of(struct connects *counted, size_t most, uint32_t who) {
    size_t i = 0;
    while (i + 1 < most && counted[i].times != 0 && counted[i].who != who) i++;
    counted[i].who = who;
    return ++counted[i].times;
}

/* Whether a process or its user connects too often. What is too much of a process doesn't count for its user's other processes. */
static bool comes_too_often(struct domain *domain, const struct ucred *peer) {
    uint32_t rate = domain->settings.connection_rate, of_process = rate / PROCESS_PART;
    if (of_process < CONNECTIONS_OF_PROCESS) of_process = CONNECTIONS_OF_PROCESS;
    if (connects_of(domain->processes, PROCESSES_COUNTED, (uint32_t)peer->pid) > of_process) return true;
    return connects_of(domain->users, USERS_COUNTED, peer->uid) > rate;
}

/* Why a peer isn't taken, or REFUSAL_NONE with an entry for it. */
static enum refusal why_not(struct domain *domain, const struct ucred *peer, struct client **client) {
    if (!is_trusted(domain, peer)) return REFUSAL_UNTRUSTED;
    if (comes_too_often(domain, peer)) return REFUSAL_TOO_OFTEN;
    *client = free_entry(domain, peer->pid);
    return *client ? REFUSAL_NONE : REFUSAL_FULL;
}

/* Whether the other end was closed while the connection waited. */
static bool has_left(int socket) {
    struct pollfd asked = {.fd = socket};
    return poll(&asked, 1, 0) > 0 && (asked.revents & POLLHUP) != 0;
}

/* Takes the connection of a socket, or turns it away. */
static void take(struct domain *domain, int socket) {
    struct ucred peer;
    struct client *client = NULL;
    socklen_t size = sizeof peer;
    if (has_left(socket)) {
        closing_close(&domain->closing, socket);
        return;
    }
    if (getsockopt(socket, SOL_SOCKET, SO_PEERCRED, &peer, &size) != 0) peer = (struct ucred){0};
    enum refusal why = why_not(domain, &peer, &client);
    if (why != REFUSAL_NONE) closing_close(&domain->closing, socket);
    else if (!enter(domain, client, socket, &peer)) why = REFUSAL_SYSTEM;
    if (why != REFUSAL_NONE) refusals_count(&domain->refusals, domain->settings.name, &peer, why);
}

void clients_accept(struct domain *domain) {
    uint64_t begin = now_ns();
    if (domain->accepts == 0 || domain->connecting_ns > connecting_most_ns || closing_is_full(&domain->closing)) {
        be_deaf(domain);
        return;
    }
    int socket = accept4(domain->listener, NULL, NULL, SOCK_CLOEXEC | SOCK_NONBLOCK);
    if (socket < 0) {
        if (errno == EAGAIN || errno == EINTR || errno == ECONNABORTED) return;
        seldom_trouble(&domain->no_connection, "a connection can't be taken"); /* the system has no descriptors or memory */
        be_deaf(domain);
        return;
    }
    domain->accepts--;
    take(domain, socket);
    domain->connecting_ns += now_ns() - begin;
}

/* ---- messages ---- */

/* The session of the other connection of a client's process, if it has one. */
static uint32_t beside(const struct client *client) {
    const struct client *other = client->sibling;
    bool is_one = other && other->state != CLIENT_ENDING && is_same_process(client, other);
    return is_one ? other->session : PAGESHARE_HOST_NO_FRAME;
}

/* A client took up the session of the other connection of its process. That ends now, if it still stands. */
static void take_over(struct domain *domain, struct client *client) {
    client->lends += client->sibling->lends;
    forget(domain, client->sibling);
}

/* Sends a reply, and descriptors with it. Never waits. */
static bool reply(const struct client *client, const uint8_t *bytes, size_t length, const int *descriptors, size_t count) {
    enum { MOST = 3 };
    union {
        struct cmsghdr head;
        char bytes[CMSG_SPACE(MOST * sizeof(int))];
    } control = {0};
    struct iovec part = {.iov_base = (void *)(uintptr_t)bytes, .iov_len = length};
    struct msghdr message = {.msg_iov = &part, .msg_iovlen = 1};
    if (count > 0 && count <= MOST) {
        message.msg_control = &control;
        message.msg_controllen = CMSG_SPACE(count * sizeof(int));
        control.head =
            (struct cmsghdr){.cmsg_len = CMSG_LEN(count * sizeof(int)), .cmsg_level = SOL_SOCKET, .cmsg_type = SCM_RIGHTS};
        memcpy(CMSG_DATA(&control.head), descriptors, count * sizeof(int));
    }
    return sendmsg(client->socket, &message, MSG_DONTWAIT | MSG_NOSIGNAL) == (ssize_t)length;
}

/* WELCOME goes with the file of frames, a buffer for the client's pages and the device for its userfaultfd. */
static bool reply_welcome(struct domain *domain, struct client *client, const uint8_t *bytes, size_t length) {
    int frames = frames_open(&domain->frames);
    int buffer = frames < 0 ? NOTHING : frames_buffer(BUFFER_BYTES, &client->buffer);
    int descriptors[] = {frames, buffer, domain->faults_device};
    bool good = buffer < 0 ? seldom_trouble(&domain->no_buffer, "a client's file of frames or buffer")
                           : reply(client, bytes, length, descriptors, domain->faults_device >= 0 ? 3 : 2);
    if (frames >= 0) close(frames);
    if (buffer >= 0) close(buffer);
    return good;
}

/* Counts what came of a packet, and notes which frames are free or in use since. */
static void count_served(struct domain *domain, struct client *client, struct pageshare_host_served got, const uint32_t *frames) {
    domain->asked += got.answers;
    domain->releases += got.freed;
    frames_freed(&domain->frames, frames, got.freed);
    for (uint32_t i = 0; i < got.loans; i++) {
        bool is_lent = frames[i] != PAGESHARE_HOST_NO_FRAME;
        if (is_lent) frames_lent(&domain->frames, frames[i]);
        client->lends += is_lent;
        domain->lends += is_lent;
        domain->refused += !is_lent;
        domain->refused_by_lent += !is_lent && domain->lends >= domain->releases + domain->slots;
    }
}

/* A client of another version learns which one this host has by the beginning of WELCOME, which all versions have. */
static void refuse_version(const struct client *client) {
    const uint32_t head[2] = {PAGESHARE_HOST_WELCOME, PAGESHARE_HOST_VERSION};
    reply(client, (const uint8_t *)head, sizeof head, NULL, 0);
}

static bool is_fault(struct domain *domain, const struct client *client, uint32_t status) {
    static const char *const words[] = {"sent what is no message", "has a library of another version"};
    bool is_version = status == PAGESHARE_HOST_FAULT_VERSION;
    if (status == PAGESHARE_HOST_OK) return false;
    if (is_version) refuse_version(client);
    if (domain->faults++ < 10)
        log_line("domain %s: process %d %s (%u); its connection ends", domain->settings.name, (int)client->pid, words[is_version],
                 (unsigned)status);
    return true;
}

/* Reads pages that a client lends. It may write to its buffer at any time. */
static bool read_pages(struct domain *domain, const struct client *client, uint32_t count) {
    uint8_t *to = domain->serving->pages[0];
    for (size_t done = 0, bytes = (size_t)count * PAGE; done < bytes;) {
        ssize_t got = pread(client->buffer, to + done, bytes - done, (off_t)done);
        if (got == 0 || (got < 0 && errno != EINTR)) return seldom_trouble(&domain->no_buffer, "reading a client's buffer");
        if (got > 0) done += (size_t)got;
    }
    return true;
}

/* Takes back what was lent in frames for which the system had no memory (bus.h): no client has heard of it. */
static struct pageshare_host_served take_back(struct domain *domain, const struct client *client) {
    struct serving *with = domain->serving;
    struct pageshare_host_served got =
        pageshare_host_take_back(&domain->host, client->session, domain->frames.bus.frames, domain->frames.bus.used, with->answer,
                                 sizeof with->answer, with->frames, PAGESHARE_HOST_MAX_PAGES);
    errno = ENOMEM;
    seldom_trouble(&domain->no_memory, "memory for a frame; pages that need one aren't lent");
    frames_map_again(&domain->frames); /* (if the system refuses, the next lend tries again) */
    return got;
}

/* Serves one packet of a client, with so many pages of its buffer. Returns false if the connection is to end. */
static bool serve_packet(struct domain *domain, struct client *client, const uint8_t *bytes, size_t length, uint32_t pages) {
    struct serving *with = domain->serving;
    if (!read_pages(domain, client, pages)) pages = 0;
    const struct pageshare_host_allowance may = {.most = pages, .beside = beside(client)};
    struct pageshare_host_served got =
        pageshare_host_serve(&domain->host, client->session, bytes, length, (const uint8_t(*)[PAGE])with->pages, pages, &may,
                             with->answer, sizeof with->answer, with->frames, PAGESHARE_HOST_MAX_PAGES);
    domain->messages++;
    if (got.loans > 0 && domain->frames.bus.used > 0) got = take_back(domain, client);
    if (is_fault(domain, client, got.status)) return false;
    if (got.resumed != PAGESHARE_HOST_NO_FRAME) take_over(domain, client);
    count_served(domain, client, got, with->frames);
    if (got.kind == PAGESHARE_HOST_WELCOME) return reply_welcome(domain, client, with->answer, got.reply_bytes);
    return got.reply_bytes == 0 || reply(client, with->answer, got.reply_bytes, NULL, 0);
}

/* Reads what a client sends, or nothing. Where the system refuses, it is tried again at the next tick or event. */
static void listen_to(struct domain *domain, struct client *client, bool to_it) {
    struct epoll_event event = {.events = to_it ? EPOLLIN : 0, .data.u64 = key_of(domain, client, EVENT_SOCKET).key};
    if (epoll_ctl(domain->poll, EPOLL_CTL_MOD, client->socket, &event) == 0) client->is_paused = !to_it;
    else seldom_trouble(&domain->no_connection, "epoll_ctl");
}

/*
 * Takes one packet of a client. Returns false if the connection is to end. A lend may take any frame that is free, so it waits
 * while memory of free frames is given back (frames.h). Then nothing more is read of this client, and others are served. Where
 * the system refuses to give it back then, no page may be lent.
 */
static bool take_packet(struct domain *domain, struct client *client, const uint8_t *bytes, size_t length) {
    struct pageshare_host_packet packet = pageshare_host_read(bytes, length);
    client->waiting_bytes = 0;
    if (client->buffer < 0 || packet.kind != PAGESHARE_HOST_LEND || length > sizeof client->waiting)
        return serve_packet(domain, client, bytes, length, 0);
    enum frames_lend lend = domain->is_lend_waiting ? LEND_WAITS : frames_begin_lend(&domain->frames);
    if (lend == LEND_WAITS) {
        domain->is_lend_waiting = true; /* (and no other lend tries for the lock meanwhile: that takes time) */
        memmove(client->waiting, bytes, length);
        client->waiting_bytes = length;
        listen_to(domain, client, false);
        return true;
    }
    bool good = serve_packet(domain, client, bytes, length, lend == LEND_ANY ? packet.count : 0);
    frames_end_lend(&domain->frames);
    return good;
}

/* Serves the lend of a client that waited. */
static void lend_again(struct domain *domain, struct client *client) {
    if (!take_packet(domain, client, client->waiting, client->waiting_bytes)) part(domain, client);
    else if (client->waiting_bytes == 0) listen_to(domain, client, true);
}

void clients_lend_again(struct domain *domain) {
    eventfd_t times;
    if (eventfd_read(domain->frames.free_again, &times) != 0 && errno != EAGAIN) trouble("eventfd");
    domain->is_lend_waiting = false;
    for (uint32_t i = 0; i < domain->client_most; i++)
        if (domain->clients[i].waiting_bytes > 0) lend_again(domain, &domain->clients[i]);
}

/* Nothing more is read of a client; only its connection's end is seen. */
static bool is_silenced(struct domain *domain, struct client *client) {
    if (client->budget > 0 && client->waiting_bytes == 0) return false;
    if (!client->is_paused) listen_to(domain, client, false);
    return true;
}

void clients_readable(struct domain *domain, union event_key key) {
    struct client *client = client_of(domain, key);
    uint8_t packet[PAGESHARE_HOST_MAX_MESSAGE + 1]; /* a packet that is longer is no message, and so is its beginning */
    if (!client || client->state != CLIENT_CONNECTED) return;
    if (client->is_paused) { /* only a connection's end is served then */
        part(domain, client);
        return;
    }
    for (int turn = 0; turn < TURN_MESSAGES && !is_silenced(domain, client); turn++) {
        ssize_t got = closing_receive(&domain->closing, client->socket, packet, sizeof packet);
        if (got < 0 && (errno == EAGAIN || errno == EINTR)) return;
        put_budget(client, client->budget - 1);
        if (got <= 0 || !take_packet(domain, client, packet, (size_t)got)) {
            part(domain, client);
            return;
        }
    }
}

/* ---- processes that have ended ---- */

void clients_ended(struct domain *domain, union event_key key) {
    struct client *client = client_of(domain, key);
    if (!client || client->state == CLIENT_ENDING) return;
    if (client->state == CLIENT_CONNECTED) part(domain, client);
    if (client->state == CLIENT_NONE) return; /* it never said hello */
    if (epoll_ctl(domain->poll, EPOLL_CTL_DEL, client->process, NULL) != 0) trouble("epoll_ctl");
    client->state = CLIENT_ENDING;
    domain->ending++;
}

void clients_release_some(struct domain *domain) {
    static _Thread_local uint32_t freed[RELEASED_AT_ONCE];
    struct client *client = NULL;
    size_t count = 0;
    for (uint32_t i = 0; i < domain->client_most && !client; i++) {
        struct client *next = &domain->clients[(domain->next_ending + i) % domain->client_most];
        if (next->state == CLIENT_ENDING) client = next;
    }
    if (!client) {
        domain->ending = 0;
        return;
    }
    domain->next_ending = (uint32_t)(client - domain->clients) + 1;
    uint32_t status = pageshare_host_end(&domain->host, client->session, freed, RELEASED_AT_ONCE, &count);
    if (status == PAGESHARE_HOST_OK && count > 0) {
        domain->releases += count;
        frames_freed(&domain->frames, freed, count);
        return;
    }
    if (status != PAGESHARE_HOST_OK)
        log_line("domain %s: a session can't be ended (%u)", domain->settings.name, (unsigned)status);
    forget(domain, client);
    domain->ending--;
}

/* ---- time ---- */

/* Connections are taken again, and counted anew each second. */
static void hear_connections(struct domain *domain) {
    domain->accepts = ACCEPTS_IN_TICK;
    domain->connecting_ns -= domain->connecting_ns < connecting_most_ns ? domain->connecting_ns : connecting_most_ns;
    if (domain->is_deaf) domain->is_deaf = !hear(domain, domain->listener, EVENT_LISTENER, true);
    if (domain->is_status_deaf) domain->is_status_deaf = !hear(domain, domain->status_listener, EVENT_STATUS, true);
    if (++domain->ticks < TICKS_IN_SECOND) return;
    domain->ticks = 0;
    memset(domain->users, 0, sizeof domain->users);
    memset(domain->processes, 0, sizeof domain->processes);
    refusals_report(&domain->refusals, domain->settings.name);
}

void clients_tick(struct domain *domain) {
    uint64_t now = now_ns();
    hear_connections(domain);
    if (domain->is_lend_waiting) clients_lend_again(domain);
    for (uint32_t i = 0; i < domain->client_most; i++) {
        struct client *client = &domain->clients[i];
        if (client->state != CLIENT_CONNECTED) continue;
        client->budget = domain->settings.client_rate / TICKS_IN_SECOND + 1;
        if (client->is_paused && client->waiting_bytes == 0) listen_to(domain, client, true);
        if (client->buffer < 0 && now - client->since_ns > silence_ns) part(domain, client);
    }
}

void clients_free(struct domain *domain) {
    for (uint32_t i = 0; domain->clients && i < domain->client_most; i++)
        if (domain->clients[i].state != CLIENT_NONE) forget(domain, &domain->clients[i]);
    free(domain->clients);
    domain->clients = NULL;
}
