#define _GNU_SOURCE
#include "status.h"
#include "devices.h"
#include "mappings.h"
#include "others.h"
#include "trouble.h"
#include <sys/socket.h>
#include <sys/un.h>

struct report {
    struct status_totals totals;
    struct status_client clients[STATUS_CLIENTS_MOST];
};

/* What the reader finds out itself, beside numbers. */
static struct {
    char names[STATUS_CLIENTS_MOST][GUEST_NAME_MOST]; /* of the clients' guests */
    char whys[STATUS_CLIENTS_MOST][COUNTS_WHY_MOST];  /* why a client lends nothing, as it says; or empty */
    struct other others[OTHERS_MOST];                 /* processes that have the library, and are no clients */
    size_t other_count;
    struct mappings_price price;
} found;

enum kind { GAUGE, COUNTER, SIGNED };

/*
 * A number that is printed: its name in JSON and, behind "pageshare_", for Prometheus. A time is in nanoseconds, but for Prometheus in
 * seconds and by a name of its own. What is a column of a table is there in MiB if its name says bytes, or in milliseconds if it is a time.
 */
struct number {
    const char *name, *help;
    enum kind kind;
    size_t at;
    uint64_t unit;            /* what it is multiplied by */
    const char *seconds;      /* the name of a time for Prometheus; of other numbers NULL */
    const char *column;       /* the heading of its column, or NULL */
    const char *const *words; /* what a column has for 0, 1 and so on, up to NULL; or NULL */
};
#define OF_TOTALS(NAME, MEMBER, KIND, UNIT, COLUMN, HELP)                                                                        \
    { NAME, HELP, KIND, offsetof(struct status_totals, MEMBER), UNIT, NULL, COLUMN, NULL }
#define OF_CLIENT(NAME, MEMBER, KIND, UNIT, COLUMN, HELP)                                                                        \
    { NAME, HELP, KIND, offsetof(struct status_client, MEMBER), UNIT, NULL, COLUMN, NULL }
#define WORDS_OF_CLIENT(NAME, MEMBER, COLUMN, WORDS, HELP)                                                                       \
    { NAME, HELP, GAUGE, offsetof(struct status_client, MEMBER), 1, NULL, COLUMN, WORDS }
#define TIME_OF_TOTALS(NAME, SECONDS, MEMBER, KIND, HELP)                                                                        \
    { NAME, HELP, KIND, offsetof(struct status_totals, MEMBER), 1, SECONDS, NULL, NULL }
#define TIME_OF_CLIENT(NAME, SECONDS, MEMBER, KIND, COLUMN, HELP)                                                                \
    { NAME, HELP, KIND, offsetof(struct status_client, MEMBER), 1, SECONDS, COLUMN, NULL }

static const struct number of_totals[] = {
    OF_TOTALS("clients", clients, GAUGE, 1, NULL, "Processes that have lent pages or may"),
    OF_TOTALS("lent_bytes", lent_pages, GAUGE, PAGE, "lent MiB", "Clients' memory that frames stand for"),
    OF_TOTALS("shared_bytes", shared_pages, GAUGE, PAGE, "shared", "Lent memory whose frame another page has too"),
    OF_TOTALS("frame_bytes", frames, GAUGE, PAGE, "frames", "Frames in use"),
    OF_TOTALS("reclaimed_bytes", reclaimed_pages, GAUGE, PAGE, "reclaimed", "Lent memory less frames: what sharing gives back"),
    OF_TOTALS("zero_bytes", zero_bytes, GAUGE, 1, "zeros", "Clients' pages of zeros that were given back, as they say"),
    OF_TOTALS("limit_bytes", frames_most, GAUGE, PAGE, "frames most", "The most that frames may take"),
    OF_TOTALS("lent_limit_bytes", lent_most, GAUGE, PAGE, "lent most", "The most that may be lent at a time"),
    OF_TOTALS("file_bytes", frame_bytes, GAUGE, 1, NULL, "Memory of the file of frames"),
    OF_TOTALS("free_bytes", free_bytes, GAUGE, 1, NULL, "The part of it that belongs to no frame in use"),
    OF_TOTALS("host_bytes", host_bytes, GAUGE, 1, NULL, "Memory of the host process itself"),
    OF_TOTALS("table_bytes", table_bytes, GAUGE, 1, NULL, "Page tables of clients"),
    OF_TOTALS("mapping_bytes", mapping_bytes, GAUGE, 1, NULL, "What the kernel takes for mappings of clients' windows"),
    OF_TOTALS("library_bytes", library_bytes, GAUGE, 1, NULL, "What the library's tables take in clients, as they say"),
    OF_TOTALS("net_bytes", net_bytes, SIGNED, 1, NULL, "Reclaimed memory and zeros, less all that sharing takes"),
    OF_TOTALS("messages_total", messages, COUNTER, 1, NULL, "Messages taken"),
    OF_TOTALS("asked_pages_total", pages_asked, COUNTER, 1, NULL, "Pages that clients asked about"),
    OF_TOTALS("lent_pages_total", lends, COUNTER, 1, NULL, "Pages that were lent"),
    OF_TOTALS("released_pages_total", releases, COUNTER, 1, NULL, "Pages that were released"),
    OF_TOTALS("refused_pages_total", refused, COUNTER, 1, NULL, "Pages for which there was no slot or no frame"),
    OF_TOTALS("refused_by_lent_pages_total", refused_by_lent, COUNTER, 1, NULL,
              "Those of them that came while as much was lent as may be"),
    OF_TOTALS("faults_total", faults, COUNTER, 1, NULL, "Clients that sent what is no message"),
    OF_TOTALS("turned_away_total", turned_away, COUNTER, 1, NULL, "Connections that were not taken"),
    TIME_OF_TOTALS("processor_nanoseconds_total", "processor_seconds_total", machine_ns, COUNTER,
                   "Processor time of the domain's threads"),
    TIME_OF_TOTALS("uptime_nanoseconds", "uptime_seconds", uptime_ns, GAUGE, "How long the domain has been served"),
};
static const char *const no_or_yes[] = {"no", "yes", NULL}, *const scans_or_filter[] = {"scans", "filter", NULL};
static const char *const words_of_devices[] = {
    [DEVICES_NONE] = "none",     [DEVICES_READ] = "seen",        [DEVICES_PIN_PAGES] = "unseen",
    [DEVICES_WRITE_ALL] = "all", [STATUS_DEVICES_UNKNOWN] = "?", NULL};
/* (the numbers from the first of `counts` on are a table of their own) */
static const struct number of_client[] = {
    OF_CLIENT("pid", pid, GAUGE, 1, "process", "Process"),
    OF_CLIENT("uid", uid, GAUGE, 1, "user", "User"),
    WORDS_OF_CLIENT("connected", connected, "connected", no_or_yes, "1 where the client is connected"),
    OF_CLIENT("client_lent_bytes", lent_pages, GAUGE, PAGE, "lent MiB", "Memory that the client has lent"),
    OF_CLIENT("client_zero_bytes", zero_bytes, GAUGE, 1, "zeros", "Pages of zeros that were given back, as the client says"),
    OF_CLIENT("client_table_bytes", table_bytes, GAUGE, 1, "page tables", "Page tables of the client"),
    OF_CLIENT("client_mapping_bytes", mapping_bytes, GAUGE, 1, NULL,
              "What the kernel takes for mappings of the client's windows"),
    OF_CLIENT("client_library_bytes", library_bytes, GAUGE, 1, NULL, "What the library's tables take, as the client says"),
    OF_CLIENT("client_messages_total", messages, COUNTER, 1, "messages", "Messages taken of the client"),
    OF_CLIENT("client_lent_pages_total", lends, COUNTER, 1, NULL, "Pages that the client has lent"),
    TIME_OF_CLIENT("client_processor_nanoseconds_total", "client_processor_seconds_total", looks_ns, COUNTER, NULL,
                   "Processor time of the library's thread in the client"),
    WORDS_OF_CLIENT("client_devices", devices, "devices", words_of_devices,
                    "0: none that pins pages, 1: seen calls, 2: unseen ones, 3: all, 4: unknown"),
    OF_CLIENT("client_mappings", counts.mappings, GAUGE, 1, "mappings", "Mappings that the client's windows take, as it says"),
    OF_CLIENT("client_mappings_limit", counts.mappings_most, GAUGE, 1, "at most", "Mappings that they may take, as it says"),
    OF_CLIENT("client_parts_whole", counts.parts_whole, GAUGE, 1, "parts whole",
              "Parts of 2 MiB of which nothing is lent, as it says"),
    OF_CLIENT("client_parts_huge", counts.parts_huge, GAUGE, 1, "of them huge",
              "Of these, the ones that are a huge page, as it says"),
    OF_CLIENT("client_parts_split", counts.parts_split, GAUGE, 1, "parts split",
              "Parts of 2 MiB whose pages may be lent, as it says"),
    TIME_OF_CLIENT("client_look_nanoseconds", "client_look_seconds", counts.round_ns, GAUGE, "a look, ms",
                   "How long the client's last look took, as it says"),
    WORDS_OF_CLIENT("client_filtered", counts.is_filtered, "found by", scans_or_filter,
                    "1 where a filter shows the library system calls, as it says"),
    OF_CLIENT("client_cpu_percent", counts.percent, GAUGE, 1, "CPU %",
              "Percent of one processor that the library's thread may use, as the client says"),
    OF_CLIENT("client_cpu_limit_percent", counts.limit, GAUGE, 1, NULL, "The same as an operator limits it, as it says, or 0"),
    OF_CLIENT("client_pause", counts.state, GAUGE, 1, NULL,
              "0: it shares, 1: --pause begins, 2: waits for memory, 3, 4: paused, as it says"),
};
enum { TOTALS_COUNT = sizeof of_totals / sizeof *of_totals, CLIENT_COUNT = sizeof of_client / sizeof *of_client, LABELS = 3 };

static uint64_t value_of(const struct number *number, const void *record) {
    uint64_t value;
    memcpy(&value, (const char *)record + number->at, sizeof value);
    return value * number->unit;
}

/* Connects, and takes the one message that is sent. Returns false, with errno, which is EPROTO where it is of another version. */
static bool take(const char *socket_path, struct report *report) {
    struct sockaddr_un name = {.sun_family = AF_UNIX};
    struct timeval patience = {.tv_sec = 5};
    int length = snprintf(name.sun_path, sizeof name.sun_path, "%s%s", socket_path, STATUS_SUFFIX);
    if (length < 0 || (size_t)length >= sizeof name.sun_path) return (errno = ENAMETOOLONG, false);
    int from = socket(AF_UNIX, SOCK_SEQPACKET | SOCK_CLOEXEC, 0);
    if (from < 0) return false;
    ssize_t got = -1;
    if (setsockopt(from, SOL_SOCKET, SO_RCVTIMEO, &patience, sizeof patience) == 0 &&
        connect(from, (const struct sockaddr *)&name, sizeof name) == 0)
        got = recv(from, report, sizeof *report, 0);
    int cause = errno;
    close(from);
    if (got < 0) return (errno = cause, false);
    size_t totals = sizeof report->totals;
    bool is_whole = (size_t)got >= totals && report->totals.version == STATUS_VERSION &&
                    report->totals.listed <= STATUS_CLIENTS_MOST &&
                    (size_t)got == totals + report->totals.listed * sizeof *report->clients;
    report->totals.domain[NAME_MOST - 1] = 0;
    return is_whole || (errno = EPROTO, false);
}

/* The same, and prints why it fails. */
static bool receive(const char *socket_path, struct report *report) {
    if (take(socket_path, report)) return true;
    log_line("%s%s: %s", socket_path, STATUS_SUFFIX, errno == EPROTO ? "not a status of this version" : strerror(errno));
    return false;
}

static double mib(uint64_t bytes) { return (double)bytes / (1 << 20); }

static bool is_client(const void *of, uint64_t process) {
    const struct report *report = of;
    for (size_t i = 0; i < report->totals.listed; i++)
        if (report->clients[i].pid == process) return true;
    return false;
}

/* Why a client has lent nothing: an operator's pause, what it says itself, or that it has nothing to lend. */
static void find_why(const struct status_client *client, char why[COUNTS_WHY_MOST]) {
    const struct counts *counts = &client->counts;
    bool is_paused = counts->state == COUNTS_PAUSED || counts->state == COUNTS_STAYS;
    if (client->lent_pages > 0) *why = 0;
    else if (is_paused) snprintf(why, COUNTS_WHY_MOST, "an operator has paused it (--resume)");
    else if (!*why && counts->version != 0 && counts->pages == 0)
        snprintf(why, COUNTS_WHY_MOST, "none of its memory is offered now");
}

static uint64_t least(uint64_t one, uint64_t other) { return one < other ? one : other; }

/* What sharing takes in a client, and its zeros: as it says, but no more than the kernel lets it have. */
static void find_memory(struct status_client *client) {
    const struct naming_memory memory = naming_memory_of(client->pid);
    const struct counts *counts = &client->counts;
    client->table_bytes = memory.tables;
    client->mapping_bytes = least(counts->mappings, found.price.most) * found.price.bytes;
    client->library_bytes = least(counts->library_bytes, memory.resident);
    uint64_t absent = memory.size > memory.resident ? memory.size - memory.resident : 0;
    client->zero_bytes = least(counts->zeros, absent / PAGE) * PAGE;
}

/* Adds a client to the totals that the reader finds. */
static void add(struct status_totals *totals, const struct status_client *client) {
    totals->zero_bytes += client->zero_bytes;
    totals->table_bytes += client->table_bytes;
    totals->mapping_bytes += client->mapping_bytes;
    totals->library_bytes += client->library_bytes;
}

/* Finds what can be seen of clients' processes: what devices may do to their memory, their guests' names, and what they take. */
static void find(struct report *report) {
    struct status_totals *totals = &report->totals;
    found.price = mappings_price_of();
    for (size_t i = 0; i < totals->listed; i++) {
        struct status_client *client = &report->clients[i];
        enum devices devices;
        client->devices = devices_of_process(client->pid, &devices) ? (uint64_t)devices : STATUS_DEVICES_UNKNOWN;
        client->looks_ns = naming_processor_of(client->pid);
        naming_counts_of(client->pid, &client->counts, found.whys[i]);
        find_why(client, found.whys[i]);
        naming_of_guest(client->pid, found.names[i]);
        find_memory(client);
        add(totals, client);
    }
    uint64_t taken =
        totals->free_bytes + totals->host_bytes + totals->table_bytes + totals->mapping_bytes + totals->library_bytes;
    totals->net_bytes = (int64_t)(totals->reclaimed_pages * PAGE + totals->zero_bytes) - (int64_t)taken;
}

/* Whether a number of a client is one that it says itself, by its counts. */
static bool is_said(const struct number *number) { return number->at >= offsetof(struct status_client, counts); }

static void show_headings(const struct number *numbers, size_t count) {
    for (const struct number *it = numbers; it < numbers + count; it++)
        if (it->column) printf(" %12s", it->column);
}

static void show_cell(const struct number *number, uint64_t value) {
    const char *const *word = number->words;
    for (uint64_t i = 0; word && *word && i < value; i++) word++;
    if (word) printf(" %12s", *word ? *word : "?");
    else if (strstr(number->name, "_bytes")) printf(" %12.1f", mib(value));
    else printf(" %12llu", (unsigned long long)(number->seconds ? value / 1000000 : value));
}

static void show_cells(const struct number *numbers, size_t count, const void *record) {
    for (const struct number *it = numbers; it < numbers + count; it++)
        if (it->column) show_cell(it, value_of(it, record));
}

/* How many of a client's numbers it doesn't say itself: they come first. */
static size_t seen_count(void) {
    size_t count = 0;
    while (count < CLIENT_COUNT && !is_said(&of_client[count])) count++;
    return count;
}

/* The clients of a table, and what to do about some. */
static void show_clients(const struct report *report) {
    const size_t count = seen_count();
    bool any_unseen = false;
    if (report->totals.listed) show_headings(of_client, count), puts("  guest");
    for (size_t i = 0; i < report->totals.listed; i++) {
        any_unseen = any_unseen || report->clients[i].devices == DEVICES_PIN_PAGES;
        show_cells(of_client, count, &report->clients[i]);
        printf("  %s\n", *found.names[i] ? found.names[i] : "-");
    }
    if (any_unseen)
        puts("unseen: pages that were shared and written stay private, since a device may have pinned them; use aio=threads");
}

/* A process that shares nothing. */
static void show_idle(bool *is_first, uint64_t process, uint64_t user, const char *name, const char *why) {
    if (*is_first) printf(" %12s %12s  %s\n", "process", "user", "shares nothing");
    *is_first = false;
    printf(" %12llu %12llu  %s: %s\n", (unsigned long long)process, (unsigned long long)user, *name ? name : "-", why);
}

/* The processes of a table that share nothing, for all that is known, each with the cause. */
static void show_idles(const struct report *report) {
    bool is_first = true;
    for (size_t i = 0; i < report->totals.listed; i++)
        if (*found.whys[i]) show_idle(&is_first, report->clients[i].pid, report->clients[i].uid, found.names[i], found.whys[i]);
    for (const struct other *it = found.others; it < found.others + found.other_count; it++)
        show_idle(&is_first, it->process, it->user, it->name, it->why);
}

/* What the clients of a table say of their windows. */
static void show_windows(const struct report *report) {
    const size_t first = seen_count();
    bool is_first = true;
    for (size_t i = 0; i < report->totals.listed; i++) {
        const struct status_client *client = &report->clients[i];
        if (client->counts.version == 0) continue;
        if (is_first) show_headings(of_client, 1), show_headings(of_client + first, CLIENT_COUNT - first), puts(" pages of one");
        is_first = false;
        show_cells(of_client, 1, client);
        show_cells(of_client + first, CLIENT_COUNT - first, client);
        printf(" %12.1f\n", (double)client->lent_pages / ((double)client->counts.mappings + 1));
    }
}

/* What is gained in all, and what was subtracted. */
static void show_gain(const struct status_totals *totals) {
    printf(
        "file of frames %.1f MiB, %.1f of it free; host %.1f MiB; pages lent %llu, released %llu, refused %llu (%llu by --lent); "
        "faults %llu, turned away %llu\n",
        mib(totals->frame_bytes), mib(totals->free_bytes), mib(totals->host_bytes), (unsigned long long)totals->lends,
        (unsigned long long)totals->releases, (unsigned long long)totals->refused, (unsigned long long)totals->refused_by_lent,
        (unsigned long long)totals->faults, (unsigned long long)totals->turned_away);
    printf("net gain %.1f MiB: reclaimed and zeros, less free frames, host, page tables %.1f, mappings %.1f (%llu bytes each%s), "
           "library %.1f\n",
           (double)totals->net_bytes / (1 << 20), mib(totals->table_bytes), mib(totals->mapping_bytes),
           (unsigned long long)found.price.bytes, found.price.is_read ? "" : ", as with Linux 6.18", mib(totals->library_bytes));
}

static void show_table(const struct report *report) {
    const struct status_totals *totals = &report->totals;
    printf("domain %s: %llu clients, up %llu s, %.1f %% of one processor since\n", totals->domain,
           (unsigned long long)totals->clients, (unsigned long long)(totals->uptime_ns / 1000000000u),
           100.0 * (double)totals->machine_ns / (double)(totals->uptime_ns + 1));
    show_headings(of_totals, TOTALS_COUNT);
    puts("");
    show_cells(of_totals, TOTALS_COUNT, totals);
    puts("");
    show_gain(totals);
    show_clients(report);
    show_windows(report);
    show_idles(report);
    if (totals->listed < totals->clients)
        printf("%12s and %llu more\n", "", (unsigned long long)(totals->clients - totals->listed));
}

/* Numbers of a record as members of an object, of which others come before. */
static void show_members(const struct number *numbers, size_t count, const void *record) {
    for (const struct number *it = numbers; it < numbers + count; it++) {
        uint64_t value = value_of(it, record);
        printf(it->kind == SIGNED ? ",\"%s\":%lld" : ",\"%s\":%llu", it->name, (unsigned long long)value);
    }
}

static void show_json(const struct report *report) {
    printf("{\"domain\":\"%s\"", report->totals.domain); /* (a name has no character that JSON escapes) */
    show_members(of_totals, TOTALS_COUNT, &report->totals);
    printf(",\"processes\":[");
    for (size_t c = 0; c < report->totals.listed; c++) {
        printf("%s{\"guest\":\"%s\",\"why\":\"%s\"", c ? "," : "", found.names[c], found.whys[c]); /* (nor have these) */
        show_members(of_client, CLIENT_COUNT, &report->clients[c]);
        printf("}");
    }
    printf("],\"others\":[");
    for (size_t i = 0; i < found.other_count; i++)
        printf("%s{\"guest\":\"%s\",\"pid\":%llu,\"uid\":%llu,\"why\":\"%s\"}", i ? "," : "", found.others[i].name,
               (unsigned long long)found.others[i].process, (unsigned long long)found.others[i].user, found.others[i].why);
    printf("]}\n");
}

static const char *name_of(const struct number *number) { return number->seconds ? number->seconds : number->name; }

static void show_head(const char *name, const struct number *number) {
    printf("# HELP pageshare_%s %s\n# TYPE pageshare_%s %s\n", name, number->help, name,
           number->kind == COUNTER ? "counter" : "gauge");
}

/* The value of a number for Prometheus, at the end of its line. */
static void show_value(const struct number *number, unsigned long long value) {
    enum { NS_OF_SECOND = 1000000000 };
    if (number->seconds) printf("%llu.%09llu\n", value / NS_OF_SECOND, value % NS_OF_SECOND);
    else printf(number->kind == SIGNED ? "%lld\n" : "%llu\n", value);
}

/* A number of a domain for Prometheus. */
static void show_metric(const struct number *number, const struct report *report) {
    show_head(name_of(number), number);
    printf("pageshare_%s{domain=\"%s\"} ", name_of(number), report->totals.domain);
    show_value(number, value_of(number, &report->totals));
}

/* A number of each client, by this name. */
static void show_of_clients(const struct number *number, const char *name, const struct report *report) {
    show_head(name, number);
    for (size_t c = 0; c < report->totals.listed; c++) {
        printf("pageshare_%s{domain=\"%s\",pid=\"%llu\",uid=\"%llu\",guest=\"%s\"} ", name, report->totals.domain,
               (unsigned long long)report->clients[c].pid, (unsigned long long)report->clients[c].uid, found.names[c]);
        show_value(number, value_of(number, &report->clients[c]));
    }
}

static void show_prometheus(const struct report *report) {
    for (size_t i = 0; i < TOTALS_COUNT; i++) show_metric(&of_totals[i], report);
    for (size_t i = LABELS - 1; i < CLIENT_COUNT; i++)
        show_of_clients(&of_client[i], i < LABELS ? "client_connected" : name_of(&of_client[i]), report);
}

/* A line for one second, if a table is watched that goes to no terminal. */
static void show_line(const struct report *report, bool is_first) {
    const struct status_totals *totals = &report->totals;
    if (is_first) printf("%8s %8s", "seconds", "clients"), show_headings(of_totals, TOTALS_COUNT), puts("     net gain");
    printf("%8llu %8llu", (unsigned long long)(totals->uptime_ns / 1000000000u), (unsigned long long)totals->clients);
    show_cells(of_totals, TOTALS_COUNT, totals);
    printf(" %12.1f\n", (double)totals->net_bytes / (1 << 20));
}

bool status_totals_of(const char *socket_path, struct status_totals *totals) {
    static struct report report;
    if (!take(socket_path, &report)) return false;
    *totals = report.totals;
    return true;
}

int status_show(const char *socket_path, enum status_form form, bool watch) {
    static struct report report;
    bool is_terminal = isatty(STDOUT_FILENO) == 1;
    for (bool is_first = true;; is_first = false) {
        if (!receive(socket_path, &report)) return 1;
        find(&report);
        if (form != STATUS_PROMETHEUS) found.other_count = others_find(socket_path, is_client, &report, found.others);
        if (form == STATUS_JSON) show_json(&report);
        else if (form == STATUS_PROMETHEUS) show_prometheus(&report);
        else if (watch && !is_terminal) show_line(&report, is_first);
        else {
            if (watch) printf("\033[H\033[J"); /* the terminal is cleared, and the table drawn anew */
            show_table(&report);
        }
        if (fflush(stdout) != 0) return 1;
        if (!watch) return 0;
        sleep(1);
    }
}
