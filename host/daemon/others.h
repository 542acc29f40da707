/* Processes that have the library and share nothing, and why. Only root sees those of other users. */
#ifndef HOST_OTHERS_H
#define HOST_OTHERS_H

#include "naming.h"

enum { OTHERS_MOST = 64 };

struct other {
    uint64_t process, user;
    char name[GUEST_NAME_MOST]; /* of its guest */
    char why[COUNTS_WHY_MOST];
};

/* Whether a process is one of a domain's clients. */
typedef bool others_is_client(const void *of, uint64_t process);
/* Finds processes that were started with the library and this socket, and aren't clients. Returns how many were found. */
size_t others_find(const char *socket, others_is_client *is_client, const void *of, struct other found[OTHERS_MOST]);
#endif
