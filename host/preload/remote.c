#define _GNU_SOURCE
#include "remote.h"
#include "kernel.h"
#include "sharing.h"
#include "trouble.h"
#include <sys/mman.h>
#include <sys/socket.h>
#include <sys/stat.h>
#include <sys/time.h>
#include <sys/un.h>
#include <unistd.h>

_Static_assert(WINDOW_BATCH == PAGESHARE_HOST_MAX_PAGES, "a window's batch is a message");
_Static_assert(WINDOW_NO_FRAME == PAGESHARE_HOST_NO_FRAME, "the same number means no frame");
_Static_assert(sizeof(struct pageshare_window_lent) == sizeof(struct pageshare_host_lent),
               "a page's loan is that of the messages");
_Static_assert(sizeof((struct pageshare_window_session *)0)->name == PAGESHARE_HOST_NAME_BYTES,
               "a session's name is that of its messages");

enum { PATIENCE_SECONDS = 5, DESCRIPTORS = 3, HEAD_BYTES = 8 };
static const size_t buffer_bytes = (size_t)WINDOW_BATCH * WINDOW_PAGE_BYTES;

/* (a descriptor may come to the monitor in its place, so that there are as many as before) */
static void shut(int *descriptor) {
    if (*descriptor >= 0) close(*descriptor), devices_closed();
    *descriptor = NOTHING;
}

/* ---- one message each way ---- */

static int broken(struct remote *remote, int cause) {
    remote_disconnect(remote);
    return cause == 0 || cause == EAGAIN || cause == EWOULDBLOCK ? ETIMEDOUT : cause;
}

static int say(struct remote *remote, const void *message, size_t bytes) {
    ssize_t sent;
    do sent = send(remote->socket, message, bytes, MSG_NOSIGNAL);
    while (sent < 0 && errno == EINTR);
    return sent == (ssize_t)bytes ? 0 : broken(remote, sent < 0 ? errno : EPIPE);
}

/* Takes a reply of exactly `bytes` bytes, whose head is this kind and count. */
static int hear(struct remote *remote, void *reply, size_t bytes, uint32_t kind, size_t count) {
    uint32_t head[2];
    ssize_t got;
    do got = recv(remote->socket, reply, bytes, MSG_TRUNC);
    while (got < 0 && errno == EINTR);
    if (got != (ssize_t)bytes) return broken(remote, got < 0 ? errno : got == 0 ? ECONNRESET : EPROTO);
    memcpy(head, reply, sizeof head);
    return head[0] == kind && head[1] == count ? 0 : broken(remote, EPROTO);
}

/* ---- the lender's calls ---- */

static int ask(void *opaque, const uint32_t *pages, const uint64_t *fingerprints, const bool *passing, size_t count,
               unsigned char *seen) {
    struct remote *remote = opaque;
    struct pageshare_host_ask message = {.kind = PAGESHARE_HOST_ASK, .count = (uint32_t)count};
    struct pageshare_host_seen answer;
    if (count > WINDOW_BATCH) return EINVAL;
    if (!pageshare_window_ask(&remote->session, message.count)) return ENOTCONN;
    for (size_t i = 0; i < count; i++) {
        uint64_t page = pages[i] | (passing[i] ? PAGESHARE_HOST_PASSING : 0);
        message.questions[i] = (struct pageshare_host_question){page, fingerprints[i]};
    }
    int cause = say(remote, &message, offsetof(struct pageshare_host_ask, questions) + count * sizeof *message.questions);
    if (cause == 0) cause = hear(remote, &answer, offsetof(struct pageshare_host_seen, seen) + count, PAGESHARE_HOST_SEEN, count);
    if (cause == 0 && !pageshare_window_hear_answers(&remote->session, answer.count)) cause = broken(remote, EPROTO);
    if (cause == 0 && count > 0) memcpy(seen, answer.seen, count);
    return cause;
}

static int lend(void *opaque, const uint32_t *pages, size_t count, struct window_loan *loans) {
    struct remote *remote = opaque;
    struct pageshare_host_lend message = {.kind = PAGESHARE_HOST_LEND, .count = (uint32_t)count};
    struct pageshare_host_loans answer;
    struct pageshare_window_lent lent[WINDOW_BATCH];
    (void)pages;
    if (count > WINDOW_BATCH) return EINVAL;
    if (!pageshare_window_lend(&remote->session, message.count)) return ENOTCONN;
    int cause = say(remote, &message, sizeof message);
    size_t bytes = offsetof(struct pageshare_host_loans, loans) + count * sizeof *answer.loans;
    if (cause == 0) cause = hear(remote, &answer, bytes, PAGESHARE_HOST_LOANS, count);
    if (cause != 0) return cause;
    memcpy(lent, answer.loans, count * sizeof *lent);
    if (!pageshare_window_hear_loans(&remote->session, remote->frame_count, lent, count)) return broken(remote, EPROTO);
    for (size_t i = 0; i < count; i++) loans[i] = (struct window_loan){.frame = lent[i].frame, .slot = lent[i].slot};
    return 0;
}

/* Says which slots are to be released, if any are. Where that fails, the next connection says them again. */
static int say_releases(struct remote *remote) {
    struct pageshare_host_release message = {.kind = PAGESHARE_HOST_RELEASE};
    int cause = 0;
    while (cause == 0 && (message.count = (uint32_t)pageshare_window_next_release(&remote->session, message.slots)) > 0)
        cause = say(remote, &message, offsetof(struct pageshare_host_release, slots) + message.count * sizeof *message.slots);
    return cause;
}

static int release(void *opaque, const uint64_t *slots, size_t count) {
    struct remote *remote = opaque;
    if (!pageshare_window_give_slots_up(&remote->session, slots, count)) { /* a reply makes room for them */
        int cause = ask(remote, NULL, NULL, NULL, 0, NULL);
        if (cause != 0) return cause;
        if (!pageshare_window_give_slots_up(&remote->session, slots, count)) return EINVAL;
    }
    say_releases(remote);
    return 0;
}

struct window_lender remote_lender(struct remote *remote) {
    return (struct window_lender){.opaque = remote,
                                  .frames = remote->frames,
                                  .frame_count = remote->frame_count,
                                  .salt = remote->salt,
                                  .pages = remote->pages,
                                  .ask = ask,
                                  .lend = lend,
                                  .release = release};
}

/* ---- the connection ---- */

static bool open_socket(struct remote *remote, const char *path) {
    struct sockaddr_un name = {.sun_family = AF_UNIX};
    struct timeval patience = {.tv_sec = PATIENCE_SECONDS};
    if (strlen(path) >= sizeof name.sun_path) return (errno = ENAMETOOLONG, false);
    memcpy(name.sun_path, path, strlen(path) + 1);
    remote->socket = sharing_own(socket(AF_UNIX, SOCK_SEQPACKET | SOCK_CLOEXEC, 0));
    return remote->socket >= 0 && setsockopt(remote->socket, SOL_SOCKET, SO_RCVTIMEO, &patience, sizeof patience) == 0 &&
           setsockopt(remote->socket, SOL_SOCKET, SO_SNDTIMEO, &patience, sizeof patience) == 0 &&
           connect(remote->socket, (const struct sockaddr *)&name, sizeof name) == 0;
}

/* Takes WELCOME and its descriptors, which are NOTHING if they didn't come. */
static bool hear_welcome(struct remote *remote, struct pageshare_host_welcome *welcome, int got[DESCRIPTORS]) {
    union {
        struct cmsghdr head;
        char bytes[CMSG_SPACE(DESCRIPTORS * sizeof(int))];
    } control;
    struct iovec part = {.iov_base = welcome, .iov_len = sizeof *welcome};
    struct msghdr message = {.msg_iov = &part, .msg_iovlen = 1, .msg_control = &control, .msg_controllen = sizeof control};
    ssize_t bytes;
    for (int i = 0; i < DESCRIPTORS; i++) got[i] = NOTHING;
    do bytes = recvmsg(remote->socket, &message, MSG_CMSG_CLOEXEC);
    while (bytes < 0 && errno == EINTR);
    if (bytes < 0) return false;
    const struct cmsghdr *head = CMSG_FIRSTHDR(&message);
    if (head && head->cmsg_level == SOL_SOCKET && head->cmsg_type == SCM_RIGHTS && head->cmsg_len >= CMSG_LEN(0)) {
        size_t count = (head->cmsg_len - CMSG_LEN(0)) / sizeof(int);
        memcpy(got, CMSG_DATA(head), (count < DESCRIPTORS ? count : DESCRIPTORS) * sizeof(int));
    }
    bool is_other = bytes >= HEAD_BYTES && welcome->kind == PAGESHARE_HOST_WELCOME && welcome->version != PAGESHARE_HOST_VERSION;
    errno = is_other ? EPROTONOSUPPORT : bytes == 0 ? ECONNRESET : EPROTO;
    return bytes == sizeof *welcome && (message.msg_flags & MSG_TRUNC) == 0 && welcome->kind == PAGESHARE_HOST_WELCOME &&
           welcome->version == PAGESHARE_HOST_VERSION && welcome->most >= WINDOW_BATCH && welcome->frames > 0 &&
           welcome->frames <= WINDOW_FRAMES_MOST && got[0] >= 0 && got[1] >= 0;
}

static bool say_hello(struct remote *remote) {
    struct pageshare_host_hello hello = {.kind = PAGESHARE_HOST_HELLO, .version = PAGESHARE_HOST_VERSION};
    bool names = pageshare_window_connect(&remote->session, hello.name, &hello.loans);
    int cause = say(remote, &hello, names ? sizeof hello : offsetof(struct pageshare_host_hello, name));
    return cause == 0 || (errno = cause, false);
}

/* Maps the buffer, in the place of the last one, whose address the windows know. */
static bool map_buffer(struct remote *remote, int buffer) {
    const int rights = PROT_READ | PROT_WRITE;
    void *at = remote->pages ? mmap(remote->pages, buffer_bytes, rights, MAP_SHARED | MAP_FIXED, buffer, 0)
                             : map_apart(buffer_bytes, rights, MAP_SHARED, buffer);
    if (at == MAP_FAILED) return false;
    remote->pages = at;
    return true;
}

/* Takes over what came with WELCOME, once nothing can fail any more. `is_same`: it is the session before, whose file of frames is in use already. */
static bool adopt(struct remote *remote, const struct pageshare_host_welcome *welcome, int got[DESCRIPTORS], bool *is_same) {
    struct stat file, before;
    if (fstat(got[0], &file) != 0 || file.st_size != (off_t)welcome->frames * WINDOW_PAGE_BYTES) return (errno = EPROTO, false);
    if (!map_buffer(remote, got[1])) return false;
    *is_same = pageshare_window_welcome(&remote->session, welcome->name) == PAGESHARE_WINDOW_TAKEN_UP &&
               file.st_ino == remote->file && welcome->frames == remote->frame_count && welcome->salt == remote->salt &&
               fstat(remote->frames, &before) == 0 && before.st_ino == file.st_ino;
    if (!*is_same) {
        shut(&remote->frames);
        remote->frames = sharing_own(got[0]);
        got[0] = NOTHING;
    }
    if (remote->faults_device < 0) {
        remote->faults_device = sharing_own(got[2]);
        got[2] = NOTHING;
    }
    remote->file = file.st_ino;
    remote->frame_count = welcome->frames;
    remote->salt = welcome->salt;
    remote->client_cpu = welcome->client_cpu;
    return true;
}

enum remote_found remote_connect(struct remote *remote, const char *path) {
    struct pageshare_host_welcome welcome;
    int got[DESCRIPTORS] = {NOTHING, NOTHING, NOTHING};
    bool is_same = false;
    bool good = open_socket(remote, path) && say_hello(remote) && hear_welcome(remote, &welcome, got) &&
                adopt(remote, &welcome, got, &is_same);
    int cause = good ? say_releases(remote) : errno;
    for (int i = 0; i < DESCRIPTORS; i++) shut(&got[i]);
    if (good && cause == 0) return is_same ? REMOTE_RESUMED : REMOTE_NEW;
    remote_disconnect(remote);
    errno = cause;
    return REMOTE_NONE;
}

void remote_disconnect(struct remote *remote) {
    pageshare_window_disconnect(&remote->session);
    shut(&remote->socket);
}
