#define _GNU_SOURCE
#include "ready.h"
#include "trouble.h"
#include <stddef.h>
#include <sys/socket.h>
#include <sys/un.h>

void ready_say(void) {
    static const char word[] = "READY=1";
    struct sockaddr_un name = {.sun_family = AF_UNIX};
    const char *path = getenv("NOTIFY_SOCKET");
    if (!path || (*path != '/' && *path != '@') || strlen(path) >= sizeof name.sun_path) return;
    memcpy(name.sun_path, path, strlen(path));
    if (*path == '@') *name.sun_path = 0; /* (a name that is no file) */
    int to = socket(AF_UNIX, SOCK_DGRAM | SOCK_CLOEXEC, 0);
    socklen_t bytes = (socklen_t)(offsetof(struct sockaddr_un, sun_path) + strlen(path));
    if (to < 0 || sendto(to, word, sizeof word - 1, MSG_NOSIGNAL, (const struct sockaddr *)&name, bytes) < 0)
        trouble("NOTIFY_SOCKET");
    if (to >= 0) close(to);
}
