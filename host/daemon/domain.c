#define _GNU_SOURCE
#include "domain.h"
#include "clients.h"
#include "slices.h"
#include <sys/epoll.h>
#include <sys/eventfd.h>
#include <sys/random.h>
#include <sys/un.h>

/*
 * How a domain's numbers follow from its memory. Lent pages are those that another page is equal to, so a frame is shared by some
 * slots. On average SLOTS_OF_FRAME of them can be lent before slots run out, unless an option says how much may be lent. Questions
 * concern pages that nobody else has: one is remembered for each SLOTS_OF_QUESTION slots.
 */
enum {
    MACHINE_MOST = 1048576, /* slots or frames of one machine */
    MACHINES_MOST = 64,
    SLOTS_OF_FRAME = 4,
    SLOTS_OF_QUESTION = 4,
    RECENT_MOST = 16777216, /* questions that a host may remember */
    EVENTS = 32,
    BACKLOG = 64,
    LISTED_MOST = 65536, /* free frames that have memory still, while slots of ended processes are released: 256 MiB */
    RELEASE_MS = 5       /* until it is looked again whether there are fewer */
};
static const uint64_t tick_ns = 100000000;

/* ---- sockets ---- */

/* A socket's file that a host left behind is taken away; one that a host listens at isn't. */
static bool clear_path(const struct sockaddr_un *name) {
    struct stat file;
    if (lstat(name->sun_path, &file) != 0) return errno == ENOENT || trouble(name->sun_path);
    if (!S_ISSOCK(file.st_mode)) return (errno = EEXIST, trouble(name->sun_path));
    int asks = socket(AF_UNIX, SOCK_SEQPACKET | SOCK_CLOEXEC | SOCK_NONBLOCK, 0);
    if (asks < 0) return trouble("socket");
    bool is_served = connect(asks, (const struct sockaddr *)name, sizeof *name) == 0 || errno != ECONNREFUSED;
    close(asks);
    if (is_served) return (errno = EADDRINUSE, trouble(name->sun_path));
    return unlink(name->sun_path) == 0 || trouble(name->sun_path);
}

/* Listens at a path, which only `mode` and `group` may connect to. `*takes_descriptors`: whether clients can pass descriptors to it. */
static int listen_at(const char *path, const char *suffix, mode_t mode, gid_t group, bool *takes_descriptors) {
    struct sockaddr_un name = {.sun_family = AF_UNIX};
    int length = snprintf(name.sun_path, sizeof name.sun_path, "%s%s", path, suffix);
    if (length < 0 || (size_t)length >= sizeof name.sun_path) return (errno = ENAMETOOLONG, trouble(path), NOTHING);
    if (!clear_path(&name)) return NOTHING;
    int listener = socket(AF_UNIX, SOCK_SEQPACKET | SOCK_CLOEXEC | SOCK_NONBLOCK, 0);
    if (listener < 0) return (trouble("socket"), NOTHING);
    *takes_descriptors = !closing_refuses_descriptors(listener);
    mode_t before = umask(0177); /* nobody else connects before the mode and the group are set */
    bool good = bind(listener, (const struct sockaddr *)&name, sizeof name) == 0;
    umask(before);
    good = good && (group == (gid_t)-1 || chown(name.sun_path, (uid_t)-1, group) == 0) && chmod(name.sun_path, mode) == 0 &&
           listen(listener, BACKLOG) == 0;
    if (good) return listener;
    trouble(name.sun_path);
    close(listener);
    return NOTHING;
}

bool domain_bind(struct domain *domain, const struct domain_settings *settings, int faults_device) {
    bool takes_descriptors[2];
    *domain = (struct domain){.settings = *settings,
                              .frames = FRAMES_NONE,
                              .closing = CLOSING_NONE,
                              .punching = PUNCHING_NONE,
                              .host = PAGESHARE_HOST_NONE,
                              .listener = NOTHING,
                              .status_listener = NOTHING,
                              .poll = NOTHING,
                              .wake = NOTHING,
                              .faults_device = faults_device};
    domain->listener = listen_at(settings->socket, "", settings->mode, settings->group, &takes_descriptors[0]);
    if (domain->listener < 0) return false;
    domain->status_listener = listen_at(settings->socket, STATUS_SUFFIX, 0600, (gid_t)-1, &takes_descriptors[1]);
    domain->closing.is_needed = takes_descriptors[0] || takes_descriptors[1];
    return domain->status_listener >= 0;
}

/* ---- memory ---- */

/* As many frames as the memory has pages, in as few machines as frames and slots need. */
static struct pageshare_host_shape shape_of(const struct domain_settings *settings, uint32_t client_most) {
    uint64_t frames = settings->memory / PAGE, slots = settings->lent ? settings->lent / PAGE : frames * SLOTS_OF_FRAME;
    uint64_t machines = ((slots > frames ? slots : frames) + MACHINE_MOST - 1) / MACHINE_MOST;
    if (machines > MACHINES_MOST) machines = MACHINES_MOST;
    uint64_t of_one = (frames + machines - 1) / machines, slots_of_one = (slots + machines - 1) / machines;
    uint64_t quota = settings->client_memory ? settings->client_memory / PAGE : UINT32_MAX;
    uint64_t recent = slots / SLOTS_OF_QUESTION;
    return (struct pageshare_host_shape){.machines = (uint32_t)machines,
                                         .slots = (uint32_t)(slots_of_one < MACHINE_MOST ? slots_of_one : MACHINE_MOST),
                                         .frames = (uint32_t)(of_one < MACHINE_MOST ? of_one : MACHINE_MOST),
                                         .sessions = client_most,
                                         .recent = (uint32_t)(recent < 1             ? 1
                                                              : recent < RECENT_MOST ? recent
                                                                                     : RECENT_MOST),
                                         .quota = (uint32_t)(quota < UINT32_MAX ? quota : UINT32_MAX),
                                         .client_cpu = settings->client_cpu};
}

static bool make_host(struct domain *domain) {
    struct pageshare_host_shape shape = shape_of(&domain->settings, domain->client_most);
    uint64_t drawn[2];
    domain->slots = (uint64_t)shape.machines * shape.slots;
    if (getrandom(drawn, sizeof drawn, 0) != sizeof drawn) return trouble("random numbers");
    shape.salt = (uint32_t)drawn[0];
    shape.fingerprints = (uint32_t)(drawn[0] >> 32);
    shape.seed = drawn[1];
    if (!frames_make(&domain->frames, shape.machines * shape.frames)) return false;
    uint32_t status = pageshare_host_make(&domain->host, &shape, domain->frames.at, (size_t)domain->frames.count * PAGE);
    if (status != PAGESHARE_HOST_OK)
        log_line("domain %s: the library refuses its numbers or its memory (%u)", domain->settings.name, (unsigned)status);
    return status == PAGESHARE_HOST_OK;
}

bool domain_make(struct domain *domain) {
    domain->client_most = domain->settings.clients * 2;
    domain->clients = calloc(domain->client_most, sizeof *domain->clients);
    domain->serving = calloc(1, sizeof *domain->serving);
    if (!domain->clients || !domain->serving) return trouble("memory for clients");
    for (uint32_t i = 0; i < domain->client_most; i++) domain->clients[i] = clients_free_entry(0);
    domain->poll = epoll_create1(EPOLL_CLOEXEC);
    domain->wake = eventfd(0, EFD_CLOEXEC | EFD_NONBLOCK);
    if (domain->poll < 0 || domain->wake < 0) return trouble("epoll");
    return make_host(domain) && poll_add(domain, domain->wake, (union event_key){.of = EVENT_WAKE}) &&
           poll_add(domain, domain->listener, (union event_key){.of = EVENT_LISTENER}) &&
           poll_add(domain, domain->status_listener, (union event_key){.of = EVENT_STATUS}) &&
           poll_add(domain, domain->frames.free_again, (union event_key){.of = EVENT_LEND});
}

/* ---- the thread ---- */

/* One event. Returns false if the thread is to end. */
static bool handle(struct domain *domain, union event_key key) {
    switch ((enum event_of)key.of) {
    case EVENT_WAKE: return false;
    case EVENT_LISTENER: clients_accept(domain); break;
    case EVENT_STATUS: status_send(domain); break;
    case EVENT_SOCKET: clients_readable(domain, key); break;
    case EVENT_PROCESS: clients_ended(domain, key); break;
    case EVENT_LEND: clients_lend_again(domain); break;
    }
    return true;
}

/* How many milliseconds are left until the next tick. */
static int until_tick_ms(const struct domain *domain) {
    uint64_t now = now_ns();
    return now < domain->next_tick_ns ? (int)((domain->next_tick_ns - now) / 1000000) + 1 : 0;
}

/*
 * Whether slots of processes that have ended are to be released. A lend that waits for the memory of free frames comes first. And it is to wait
 * for the memory of LISTED_MOST frames at most, however many the processes had.
 */
static bool is_to_release(struct domain *domain) {
    return domain->ending > 0 && !domain->is_lend_waiting && atomic_load(&domain->frames.waiting) < LISTED_MOST;
}

/* How many milliseconds the thread sleeps if nothing happens: a few if slots are to be released once memory was given back. */
static int sleep_ms(struct domain *domain) {
    int tick_ms = until_tick_ms(domain);
    if (is_to_release(domain)) return 0;
    return domain->ending > 0 && tick_ms > RELEASE_MS ? RELEASE_MS : tick_ms;
}

static void *serve(void *of) {
    struct domain *domain = of;
    struct epoll_event events[EVENTS];
    ask_for_short_slices(); /* all clients wait for this thread */
    for (bool goes_on = true; goes_on && !atomic_load(&domain->must_end);) {
        int count = epoll_wait(domain->poll, events, EVENTS, sleep_ms(domain));
        for (int i = 0; i < count && goes_on; i++) goes_on = handle(domain, (union event_key){.key = events[i].data.u64});
        if (is_to_release(domain)) clients_release_some(domain);
        if (now_ns() < domain->next_tick_ns) continue;
        domain->next_tick_ns = now_ns() + tick_ns;
        clients_tick(domain);
    }
    return NULL;
}

bool domain_start(struct domain *domain) {
    domain->start_ns = now_ns();
    if (domain->closing.is_needed && !closing_start(&domain->closing)) return false;
    if (!punching_start(&domain->punching, &domain->frames)) return false;
    int cause = pthread_create(&domain->thread, NULL, serve, domain);
    domain->has_thread = cause == 0;
    return cause == 0 || (errno = cause, trouble("a domain's thread"));
}

/* Takes the sockets' files away; they stay if the folder isn't the host's, and the next host takes them away. */
static void unlink_sockets(const struct domain *domain) {
    if (domain->listener >= 0) unlink(domain->settings.socket);
    if (domain->status_listener < 0) return;
    char path[PATH_MOST + sizeof STATUS_SUFFIX];
    snprintf(path, sizeof path, "%s%s", domain->settings.socket, STATUS_SUFFIX);
    unlink(path);
}

void domain_end(struct domain *domain) {
    int *descriptors[] = {&domain->poll, &domain->wake};
    if (domain->has_thread) {
        atomic_store(&domain->must_end, true); /* (seen at the next tick, if not before) */
        if (eventfd_write(domain->wake, 1) != 0) trouble("eventfd");
        pthread_join(domain->thread, NULL);
    }
    punching_end(&domain->punching);
    unlink_sockets(domain);
    clients_free(domain);
    if (domain->listener >= 0)
        closing_close(&domain->closing, domain->listener); /* (and what was sent to connections that wait) */
    if (domain->status_listener >= 0) closing_close(&domain->closing, domain->status_listener);
    closing_end(&domain->closing);
    for (size_t i = 0; i < sizeof descriptors / sizeof *descriptors; i++)
        if (*descriptors[i] >= 0) close(*descriptors[i]);
    pageshare_host_free(&domain->host);
    frames_free(&domain->frames);
    free(domain->serving);
    domain->serving = NULL;
}
