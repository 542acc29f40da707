/* The settings of the host: from its command line, and from a settings file whose lines are the same options. */
#ifndef HOST_SETTINGS_H
#define HOST_SETTINGS_H

#include <stdbool.h>
#include <stddef.h>
#include <stdint.h>
#include <sys/types.h>

/* Limits of one host. NAME_MOST and PATH_MOST are with the closing zero; a socket's address can have 108 bytes, and the status
 * socket's name is 7 longer than the domain's. */
enum { DOMAINS_MOST = 16, NAME_MOST = 64, PATH_MOST = 101, CLIENTS_MOST = 4096 };

/* One domain: clients that may read each other's lent pages. */
struct domain_settings {
    char name[NAME_MOST];
    char socket[PATH_MOST];
    uint64_t memory;          /* bytes: the most that frames take */
    uint64_t lent;            /* bytes: the most guests' memory that may be lent at a time; 0: as follows from `memory` */
    uint64_t client_memory;   /* bytes: the most that one client (a process) may have lent; 0: all */
    uint32_t clients;         /* the most at a time */
    uint32_t client_rate;     /* messages that are taken of one client in a second */
    uint32_t connection_rate; /* connections that are taken of one user in a second */
    uint32_t client_cpu;      /* the percentage of one processor that a client is to use at most; 0: the client decides */
    mode_t mode;              /* of the socket */
    gid_t group;              /* of the socket; (gid_t)-1: as it comes */
    bool trust_peers;         /* takes clients that are root or of the host's own user */
};

enum task { TASK_SERVE, TASK_STATUS, TASK_CHECK, TASK_MEMBER, TASK_PAUSE, TASK_RESUME, TASK_LIMIT, TASK_HELP, TASK_VERSION };
enum status_form { STATUS_TABLE, STATUS_JSON, STATUS_PROMETHEUS };

struct settings {
    enum task task;
    struct domain_settings usual; /* what domains begin with */
    struct domain_settings domains[DOMAINS_MOST];
    size_t domain_count;
    char user[NAME_MOST]; /* the user that the host becomes after it opened /dev/userfaultfd; "": it doesn't change */
    char status[PATH_MOST];
    char guest[NAME_MOST]; /* whose sharing is to pause, to go on or to be limited: its name, or the number of its process */
    unsigned percent;      /* of a processor, that it may use; 0: without a limit */
    enum status_form form;
    bool watch;
    unsigned seconds; /* of a trial */
};

/* Reads the command line. Returns false if a word or a line of the file is wrong, after it has printed which. */
bool settings_read(struct settings *settings, int count, char **words);

extern const char settings_help[];

#endif
