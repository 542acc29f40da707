/*
 * What host/preload/remote.c says to a host whose connections break. The host is a stand-in in a thread of its own, which loses replies and
 * releases on purpose and looks at what it gets afterwards. Prints "ok", or what isn't so (status 1).
 */
#define _GNU_SOURCE
#include "remote.h"
#include "trouble.h"
#include <pthread.h>
#include <stdlib.h>
#include <sys/mman.h>
#include <sys/socket.h>
#include <sys/un.h>
#include <unistd.h>

enum { FRAMES = 64, BATCHES = sizeof((struct remote *)0)->session.unheard / sizeof(uint64_t) / WINDOW_BATCH, CPU = 25, SALT = 9 };

static const uint8_t first_name[PAGESHARE_HOST_NAME_BYTES] = {1}, second_name[PAGESHARE_HOST_NAME_BYTES] = {2};
static int listener, peer = NOTHING, frames;
static unsigned wrong;

#define CHECK(is_so)                                                                                                             \
    do {                                                                                                                         \
        if (!(is_so)) fprintf(stderr, "remote.c:%d: not so: %s\n", __LINE__, #is_so), wrong++;                                   \
    } while (0)

/* (The library marks its descriptors and counts what it closes; here nothing needs it.) */
int sharing_own(int descriptor);
int sharing_own(int descriptor) { return descriptor; }
void devices_closed(void);
void devices_closed(void) {}

/* ---- the stand-in for a host ---- */

/* The next packet, whose kind and number are these; returns how many bytes it has. */
static size_t next(void *packet, size_t room, uint32_t kind, uint32_t number) {
    uint32_t head[2] = {0, 0};
    ssize_t got = recv(peer, packet, room, 0);
    if (got >= (ssize_t)sizeof head) memcpy(head, packet, sizeof head);
    if (got < (ssize_t)sizeof head || head[0] != kind || head[1] != number)
        fprintf(stderr, "a packet of kind %u, %u in place of kind %u, %u\n", head[0], head[1], kind, number), wrong++;
    return got < 0 ? 0 : (size_t)got;
}

/* Takes a connection and its hello: of a new session, or of one with a name in which so many replies came. */
static void hear_hello(const uint8_t *name, uint64_t loans) {
    struct pageshare_host_hello hello = {.loans = 77};
    peer = accept4(listener, NULL, NULL, SOCK_CLOEXEC);
    size_t bytes = next(&hello, sizeof hello, PAGESHARE_HOST_HELLO, PAGESHARE_HOST_VERSION);
    CHECK(bytes == (name ? sizeof hello : 8));
    if (name) CHECK(memcmp(hello.name, name, sizeof hello.name) == 0 && hello.loans == loans);
}

static void say_welcome(const uint8_t *name) {
    struct pageshare_host_welcome welcome = {.kind = PAGESHARE_HOST_WELCOME,
                                             .version = PAGESHARE_HOST_VERSION,
                                             .frames = FRAMES,
                                             .salt = SALT,
                                             .most = PAGESHARE_HOST_MAX_PAGES,
                                             .client_cpu = CPU};
    union {
        struct cmsghdr head;
        char bytes[CMSG_SPACE(2 * sizeof(int))];
    } control = {.head = {.cmsg_len = CMSG_LEN(2 * sizeof(int)), .cmsg_level = SOL_SOCKET, .cmsg_type = SCM_RIGHTS}};
    int buffer = memfd_create("buffer", MFD_CLOEXEC);
    struct iovec part = {.iov_base = &welcome, .iov_len = sizeof welcome};
    struct msghdr message = {.msg_iov = &part, .msg_iovlen = 1, .msg_control = &control, .msg_controllen = sizeof control};
    CHECK(ftruncate(buffer, WINDOW_BATCH * WINDOW_PAGE_BYTES) == 0);
    memcpy(welcome.name, name, sizeof welcome.name);
    memcpy(CMSG_DATA(&control.head), (int[]){frames, buffer}, 2 * sizeof(int));
    CHECK(sendmsg(peer, &message, 0) == sizeof welcome);
    close(buffer);
}

static void reply(uint32_t kind, uint32_t count, size_t bytes_of_one) {
    uint8_t packet[PAGESHARE_HOST_MAX_MESSAGE] = {0};
    uint32_t head[2] = {kind, count};
    memcpy(packet, head, sizeof head);
    CHECK(send(peer, packet, sizeof head + count * bytes_of_one, 0) > 0);
}

static void hang_up(void) {
    close(peer);
    peer = NOTHING;
}

static void hear_release(uint32_t count, uint64_t first) {
    struct pageshare_host_release release;
    next(&release, sizeof release, PAGESHARE_HOST_RELEASE, count);
    CHECK(release.slots[0] == first && release.slots[count - 1] == first + count - 1);
}

static void answer_question(uint32_t count, bool is_passing) {
    struct pageshare_host_ask ask;
    next(&ask, sizeof ask, PAGESHARE_HOST_ASK, count);
    if (count > 0)
        CHECK(ask.questions[0].page == (is_passing ? 1 | PAGESHARE_HOST_PASSING : 1) && ask.questions[0].fingerprint == 3);
    reply(PAGESHARE_HOST_SEEN, count, 1);
}

static void *host(void *unused) {
    struct pageshare_host_lend lend;
    hear_hello(NULL, 0);
    say_welcome(first_name);
    next(&lend, sizeof lend, PAGESHARE_HOST_LEND, 2);
    reply(PAGESHARE_HOST_LOANS, 2, sizeof(struct pageshare_host_lent));
    hear_release(2, 7);
    next(&lend, sizeof lend, PAGESHARE_HOST_LEND, 1);
    hang_up(); /* neither the release nor the lend is known to have been heard */

    hear_hello(first_name, 1);
    say_welcome(first_name);
    hear_release(2, 7);
    answer_question(1, true);
    hang_up();

    hear_hello(first_name, 1);
    say_welcome(first_name);
    for (uint64_t i = 0; i < BATCHES; i++) hear_release(WINDOW_BATCH, i * WINDOW_BATCH);
    answer_question(0, false); /* so that nothing more has to be kept */
    hear_release(WINDOW_BATCH, BATCHES * WINDOW_BATCH);
    hang_up();

    hear_hello(first_name, 1);
    say_welcome(second_name); /* another session, whose slots are others */
    answer_question(1, false);
    hang_up();

    hear_hello(second_name, 0);
    reply(PAGESHARE_HOST_WELCOME, PAGESHARE_HOST_VERSION + 1, 0);
    hang_up();
    return unused;
}

/* ---- the client ---- */

static void use_first_session(struct remote *remote, const char *path) {
    const uint32_t pages[2] = {1, 2};
    const uint64_t fingerprints[2] = {3, 4}, slots[2] = {7, 8};
    const bool passing[2] = {true, false};
    struct window_loan loans[2];
    unsigned char seen[2];
    CHECK(remote_connect(remote, path) == REMOTE_NEW && remote->client_cpu == CPU && remote->salt == SALT);
    struct window_lender lender = remote_lender(remote);
    CHECK(lender.lend(lender.opaque, pages, 2, loans) == 0 && remote->session.loans == 1);
    CHECK(lender.release(lender.opaque, slots, 2) == 0);
    CHECK(lender.lend(lender.opaque, pages, 1, loans) != 0 && remote->session.loans == 1 && remote->session.unknown &&
          remote->socket < 0);
    CHECK(remote_connect(remote, path) == REMOTE_RESUMED && !remote->session.unknown);
    CHECK(lender.ask(lender.opaque, pages, fingerprints, passing, 1, seen) == 0);
    CHECK(lender.ask(lender.opaque, pages, fingerprints, passing, 1, seen) != 0);
}

static void release_much(struct remote *remote, const char *path) {
    uint64_t slots[WINDOW_BATCH];
    CHECK(remote_connect(remote, path) == REMOTE_RESUMED);
    struct window_lender lender = remote_lender(remote);
    for (uint64_t i = 0; i <= BATCHES; i++) {
        for (uint64_t at = 0; at < WINDOW_BATCH; at++) slots[at] = i * WINDOW_BATCH + at;
        CHECK(lender.release(lender.opaque, slots, WINDOW_BATCH) == 0);
    }
    CHECK(remote->session.count == WINDOW_BATCH);
    remote_disconnect(remote);
}

static void use_others(struct remote *remote, const char *path) {
    const uint32_t page = 1;
    const uint64_t fingerprint = 3;
    const bool is_passing = false;
    unsigned char seen;
    CHECK(remote_connect(remote, path) == REMOTE_NEW && remote->session.loans == 0 && remote->session.count == 0);
    struct window_lender lender = remote_lender(remote);
    CHECK(lender.ask(lender.opaque, &page, &fingerprint, &is_passing, 1, &seen) == 0);
    remote_disconnect(remote);
    CHECK(remote_connect(remote, path) == REMOTE_NONE && errno == EPROTONOSUPPORT && remote->socket < 0);
}

int main(int count, char **words) {
    struct sockaddr_un name = {.sun_family = AF_UNIX};
    struct remote remote = REMOTE_CLOSED;
    pthread_t thread;
    if (count != 2 || strlen(words[1]) >= sizeof name.sun_path) return fprintf(stderr, "remote SOCKET\n"), 2;
    memcpy(name.sun_path, words[1], strlen(words[1]) + 1);
    listener = socket(AF_UNIX, SOCK_SEQPACKET | SOCK_CLOEXEC, 0);
    frames = memfd_create("frames", MFD_CLOEXEC);
    if (bind(listener, (const struct sockaddr *)&name, sizeof name) != 0 || listen(listener, 4) != 0 ||
        ftruncate(frames, (off_t)FRAMES * WINDOW_PAGE_BYTES) != 0 || pthread_create(&thread, NULL, host, NULL) != 0)
        return perror("remote"), 2;
    use_first_session(&remote, words[1]);
    release_much(&remote, words[1]);
    use_others(&remote, words[1]);
    pthread_join(thread, NULL);
    unlink(words[1]);
    puts(wrong ? "WRONG" : "ok");
    return wrong != 0;
}
