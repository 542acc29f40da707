/* A domain that is served: its frames, the library's host with its sessions, its sockets and its clients. One thread has it. */
#ifndef HOST_DOMAIN_H
#define HOST_DOMAIN_H

#include "closing.h"
#include "frames.h"
#include "pageshare_host.h"
#include "punching.h"
#include "refusals.h"
#include "seldom.h"
#include "settings.h"
#include "status.h"
#include "trouble.h"

/* What a client's entry in the table is. */
enum client_state {
    CLIENT_NONE,      /* free */
    CLIENT_CONNECTED, /* its connection stands */
    CLIENT_APART,     /* its connection ended, and its process lives: its slots stay */
    CLIENT_ENDING     /* its process has ended: its slots are being released */
};

struct client {
    enum client_state state;
    uint32_t generation; /* of the entry, so that an event of its former client is recognized */
    int socket;          /* NOTHING if the connection ended */
    int process;         /* a descriptor of the process: readable when the process has ended */
    pid_t pid;
    uid_t uid;
    uint32_t session;       /* the library's number */
    int buffer;             /* a file of pages that it lends, which it may write at any time; NOTHING before its first message */
    struct client *sibling; /* the other connection of its process, or NULL */
    bool is_paused;         /* nothing is read of it until the next tick, or until its lend is served */
    uint8_t waiting[sizeof(struct pageshare_host_lend)]; /* a lend that waits while memory is given back */
    size_t waiting_bytes;                                /* its bytes, or 0: none waits */
    uint32_t budget;                                     /* how many more messages of its process are taken until the next tick */
    uint64_t since_ns;                                   /* when it connected */
    uint64_t lends;
};

/* What a packet of a client is served with. (It is too large for what each thread has of its own.) */
struct serving {
    uint8_t pages[PAGESHARE_HOST_MAX_PAGES][PAGE]; /* copies of those that it lends */
    uint8_t answer[PAGESHARE_HOST_MAX_MESSAGE];
    uint32_t frames[PAGESHARE_HOST_MAX_PAGES]; /* that are free since, or those of its pages */
};

/* How often somebody connected in this second: a user or a process. */
struct connects {
    uint32_t who, times;
};
enum { USERS_COUNTED = 64, PROCESSES_COUNTED = 256 };

struct domain {
    struct domain_settings settings;
    struct frames frames;
    struct pageshare_host host;
    struct serving *serving;
    struct client *clients;
    uint32_t client_most; /* entries: one more connection than clients may be taking a session up */
    uint32_t ending;      /* how many of them are ending */
    uint32_t next_ending; /* where the next is looked for */
    uint64_t slots;       /* the most of all */
    int listener, status_listener, poll, wake;
    int faults_device;      /* /dev/userfaultfd, or NOTHING; all domains have the one */
    bool is_lend_waiting;   /* a client's lend waits while memory is given back */
    bool is_deaf;           /* no connection is taken until the next tick */
    bool is_status_deaf;    /* no status is sent until the next tick */
    uint32_t accepts;       /* how many more are taken until then */
    uint32_t ticks;         /* of this second, which has ten */
    uint64_t connecting_ns; /* the time that connections took, less what they may take until now */
    struct connects users[USERS_COUNTED], processes[PROCESSES_COUNTED];
    struct closing closing;
    struct punching punching;
    struct seldom no_connection, no_buffer, no_memory, no_status; /* lines that may be due often */
    struct refusals refusals;
    struct pageshare_host_totals counted; /* the library's totals, as they were last counted */
    uint64_t counted_until_ns;            /* and until when they are reported */
    uint64_t start_ns, next_tick_ns, messages, asked, lends, releases, refused, refused_by_lent, faults;
    pthread_t thread;
    bool has_thread;
    atomic_bool must_end;
};

/* Binds a domain's sockets, before the host becomes another user. Returns false if that fails, after it has printed why. */
bool domain_bind(struct domain *domain, const struct domain_settings *settings, int faults_device);
/* Makes the domain's frames and the library's host. */
bool domain_make(struct domain *domain);
/* Begins to serve it, on a thread of its own. */
bool domain_start(struct domain *domain);
/* Ends the thread, closes and frees all. Right at any time after domain_bind. */
void domain_end(struct domain *domain);

#endif
