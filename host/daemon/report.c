#define _GNU_SOURCE
/* The side of status.h that the host has: what a domain counts, and sending it. */
#include "clients.h"

/* Memory of the process alone, in bytes: what it has that is of no file. */
static uint64_t host_bytes(void) {
    unsigned long long resident = 0, shared = 0;
    FILE *file = fopen("/proc/self/statm", "re");
    if (!file) return 0;
    int got = fscanf(file, "%*u %llu %llu", &resident, &shared);
    fclose(file);
    return got == 2 && resident > shared ? (resident - shared) * PAGE : 0;
}

static void list_clients(struct domain *domain, struct status_totals *totals, struct status_client *clients) {
    for (uint32_t i = 0; i < domain->client_most; i++) {
        const struct client *client = &domain->clients[i];
        struct pageshare_host_session session;
        if (client->state == CLIENT_NONE || pageshare_host_session(&domain->host, client->session, &session) != PAGESHARE_HOST_OK)
            continue;
        totals->clients++;
        if (totals->listed == STATUS_CLIENTS_MOST) continue;
        clients[totals->listed++] = (struct status_client){.pid = (uint64_t)client->pid,
                                                           .uid = client->uid,
                                                           .connected = client->state == CLIENT_CONNECTED,
                                                           .lent_pages = session.slots,
                                                           .messages = session.messages,
                                                           .lends = client->lends};
    }
}

/* The library looks at each slot to count them. So that asking often doesn't slow clients down, that takes one part in 20 of the time. */
static const struct pageshare_host_totals *count(struct domain *domain) {
    enum { PART = 20 };
    uint64_t begin = now_ns();
    if (begin < domain->counted_until_ns) return &domain->counted;
    if (pageshare_host_report(&domain->host, &domain->counted) != PAGESHARE_HOST_OK)
        log_line("the library's totals aren't there");
    domain->counted_until_ns = now_ns() + (now_ns() - begin) * PART;
    return &domain->counted;
}

/* What frames that nobody has still take: they wait to be given back, or a client's reads brought memory into them. */
static uint64_t free_bytes(const struct frames *frames, uint64_t file_bytes) {
    uint64_t in_use = (uint64_t)atomic_load(&frames->used) * PAGE;
    return file_bytes > in_use ? file_bytes - in_use : 0;
}

static void fill(struct domain *domain, struct status_totals *totals, struct status_client *clients) {
    const struct pageshare_host_totals *counted = count(domain);
    uint64_t file_bytes = frames_memory(&domain->frames);
    *totals = (struct status_totals){.version = STATUS_VERSION,
                                     .lent_pages = counted->slots,
                                     .frames = counted->frames,
                                     .frames_most = domain->frames.count,
                                     .lent_most = domain->slots,
                                     .shared_pages = counted->shared,
                                     .reclaimed_pages = counted->reclaimed,
                                     .frame_bytes = file_bytes,
                                     .free_bytes = free_bytes(&domain->frames, file_bytes),
                                     .host_bytes = host_bytes(),
                                     .messages = domain->messages,
                                     .pages_asked = domain->asked,
                                     .lends = domain->lends,
                                     .releases = domain->releases,
                                     .refused = domain->refused,
                                     .refused_by_lent = domain->refused_by_lent,
                                     .faults = domain->faults,
                                     .turned_away = domain->refusals.total,
                                     .machine_ns = clock_ns(CLOCK_THREAD_CPUTIME_ID) + punching_ns(&domain->punching),
                                     .uptime_ns = now_ns() - domain->start_ns};
    memcpy(totals->domain, domain->settings.name, sizeof totals->domain);
    list_clients(domain, totals, clients);
}

void status_send(struct domain *domain) {
    struct {
        struct status_totals totals;
        struct status_client clients[STATUS_CLIENTS_MOST];
    } * report;
    int to = accept4(domain->status_listener, NULL, NULL, SOCK_CLOEXEC | SOCK_NONBLOCK);
    if (to < 0) {
        if (errno != EAGAIN && errno != EINTR && errno != ECONNABORTED) clients_defer_status(domain);
        return;
    }
    report = malloc(sizeof *report);
    if (report) {
        fill(domain, &report->totals, report->clients);
        size_t bytes = sizeof report->totals + report->totals.listed * sizeof *report->clients;
        if (send(to, report, bytes, MSG_DONTWAIT | MSG_NOSIGNAL) < 0) seldom_trouble(&domain->no_status, "a status");
    }
    free(report);
    closing_close(&domain->closing, to);
}
