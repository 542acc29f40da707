#define _GNU_SOURCE
#include "connection.h"
#include "counts_file.h"
#include "memory.h"
#include "pageshare_window.h"
#include "pausing.h"
#include "remote.h"
#include "sharing.h"
#include "slices.h"
#include "trouble.h"
#include <fcntl.h>
#include <poll.h>
#include <pthread.h>
#include <stdatomic.h>
#include <stdlib.h>
#include <sys/socket.h>
#include <sys/stat.h>
#include <sys/syscall.h>
#include <sys/un.h>
#include <unistd.h>

enum {
    PERIOD_MS = 1000,      /* between the beginnings of two looks, where nothing makes it shorter or longer */
    MANY_MAPPINGS = 65536, /* what is said of mappings is a multiple of this */
    FIRST_NICE = -10,      /* the nice value of the thread, if it may have it */
    CPU_PERCENT = 2, /* of one processor, which the thread may use unless its settings or the host say; also for what is new */
    BURST_PERCENT = 25,
    HUGE_FROM = 64,    /* pages of a huge page that could be shared, until which it stays whole */
    FORGET_LOOKS = 64, /* looks that fail with nothing, after which a failure is printed again */
    REST_MOST = 7,     /* idle pages that a look leaves out for one at which it glances, where nothing changes */
    /* processor time that may be used at the burst's rate. FIRST_NS: for each page of a new window, or beside a new host; FRESH_NS: for
     * one that is new in its window; SHARED_NS: for one that was lent or given back */
    FIRST_NS = 2000,
    FRESH_NS = 6000,
    SHARED_NS = 15000,
    PATH_ROOM = 256
};
/* (a look attends each second, and what is due then each time is due a little earlier) */
static const uint64_t retry_ns = 1000000000, chores_ns = 900000000;

/* What the environment says. */
static struct {
    char socket[PATH_ROOM];
    char trace[PATH_ROOM];
    unsigned period_ms;
    unsigned cpu_percent; /* of one processor; 0: nobody says */
    unsigned huge_from;   /* as in windows_tuning */
    bool is_hasty;        /* as never_wait of windows_config; for tests */
    unsigned flags;       /* of window_make */
    int counts;           /* a file for the counts, or NOTHING */
    struct stat root;     /* the process's root folder */
} settings = {.period_ms = PERIOD_MS, .huge_from = HUGE_FROM, .counts = NOTHING};

/* The thread's own. */
static struct {
    struct remote remote;
    struct windows *windows;
    bool is_attached, was_reported, is_refused, was_crowded, was_short, was_unattached;
    uint64_t next_try_ns, next_scan_ns, next_chores_ns, look_begun_ns;
    bool was_slow;      /* a scan of the descriptors */
    bool was_connected; /* when the look under way began */
    bool is_memory_short;
    struct windows_counts before, at_chores;
    struct pageshare_window_times times;
    unsigned printed;    /* a bit for each status of a look that was printed, so that each is printed once */
    unsigned good_looks; /* in turn, that failed with nothing */
} my = {.remote = REMOTE_CLOSED};

bool connection_is_wanted(void) {
    const char *path = getenv("PAGESHARE_SOCKET");
    return path && *path;
}

/* Takes this library off LD_PRELOAD, and leaves others there. */
static void end_preload(void) {
    static const char separators[] = ": ";
    const char *list = getenv("LD_PRELOAD");
    char kept[1024] = "";
    if (!list || strlen(list) >= sizeof kept) return;
    for (size_t length; *list; list += length + (list[length] != 0)) {
        length = strcspn(list, separators);
        char entry[sizeof kept];
        memcpy(entry, list, length);
        entry[length] = 0;
        if (length == 0 || strstr(entry, "libpageshare-window.so")) continue;
        if (*kept) strcat(kept, ":");
        strcat(kept, entry);
    }
    if (*kept) setenv("LD_PRELOAD", kept, 1);
    else unsetenv("LD_PRELOAD");
}

static void read_path(const char *name, char to[PATH_ROOM]) {
    const char *value = getenv(name);
    snprintf(to, PATH_ROOM, "%s", value ? value : "");
}

/* A number that the environment may set. */
static unsigned read_number(const char *name, unsigned otherwise, unsigned most) {
    const char *value = getenv(name);
    char *end = NULL;
    if (!value || !*value) return otherwise;
    unsigned long number = *value >= '0' && *value <= '9' ? strtoul(value, &end, 10) : 0;
    if (number >= 1 && number <= most && !*end) return (unsigned)number;
    log_line("%s=%s: not a number from 1 to %u; it is left out", name, value, most);
    return otherwise;
}

void connection_prepare(void) {
    char counts[PATH_ROOM];
    const char *period = getenv("PAGESHARE_PERIOD_MS"), *fork = getenv("PAGESHARE_DONTFORK");
    read_path("PAGESHARE_SOCKET", settings.socket);
    read_path("PAGESHARE_TRACE", settings.trace);
    read_path("PAGESHARE_COUNTS", counts);
    unsigned long asked = period ? strtoul(period, NULL, 10) : PERIOD_MS;
    settings.period_ms = asked >= 1 && asked <= 3600000 ? (unsigned)asked : PERIOD_MS;
    settings.cpu_percent = read_number("PAGESHARE_CPU", 0, 100);
    settings.huge_from = read_number("PAGESHARE_HUGE", HUGE_FROM, WINDOWS_HUGE_PAGES + 1);
    settings.is_hasty = getenv("PAGESHARE_HASTY") != NULL;
    settings.flags = fork && strcmp(fork, "1") == 0 ? WINDOW_NO_CHILD : 0;
    if (*counts)
        settings.counts = sharing_own((int)syscall(SYS_openat, AT_FDCWD, counts, O_WRONLY | O_CREAT | O_TRUNC | O_CLOEXEC, 0644));
    if (stat("/", &settings.root) != 0) settings.root = (struct stat){.st_ino = 0};
    pageshare_window_begin_times(&my.times, settings.period_ms);
    counts_file_make();
    end_preload();
}

/* Whether the process has changed its root folder since (chroot): the socket and /proc aren't there then, or are others. */
static bool has_other_root(void) {
    struct stat root;
    return stat("/", &root) == 0 && (root.st_ino != settings.root.st_ino || root.st_dev != settings.root.st_dev);
}

/* ---- the host ---- */

/* An enum devices: what was seen when pages were guarded. */
static atomic_int seen_at_guards;

/* Whether devices may pin pages by now, for all that can be seen. */
static enum windows_pins find_pins(void *unused) {
    (void)unused;
    enum devices devices = devices_still_open();
    if (devices >= DEVICES_PIN_PAGES) atomic_store(&seen_at_guards, (int)devices);
    return devices < DEVICES_PIN_PAGES ? WINDOWS_PINS_NEVER : WINDOWS_PINS_POSSIBLE;
}

static bool attend(void *unused);

/* The less of two percentages, of which 0 says nothing. */
static unsigned less_of(unsigned one, unsigned other) { return other == 0 || (one != 0 && one < other) ? one : other; }

/* The thread's share of a processor, in percent: what the environment says, or the host, or the less of both; but no more than an operator wants. */
static unsigned share(void) {
    unsigned said = less_of(settings.cpu_percent, my.remote.client_cpu);
    return less_of(said ? said : CPU_PERCENT, pausing_limit());
}

/* The same for what is new. */
static unsigned burst(void) { return less_of(BURST_PERCENT, pausing_limit()); }

/* Where memory is short no part of a window stays whole of which anything could be shared. */
static struct windows_tuning tuning(void) {
    bool is_split = my.is_memory_short && settings.huge_from <= WINDOWS_HUGE_PAGES;
    return (struct windows_tuning){
        .huge_from = (uint16_t)(is_split ? 1 : settings.huge_from), .rest_most = REST_MOST, .turns = (uint16_t)my.times.turns};
}

/* Makes the set of windows, which needs the host's descriptor if the process may make no userfaultfd itself. */
static bool make_windows(void) {
    struct windows_config config = {.pins = find_pins(NULL),
                                    .find_pins = find_pins,
                                    .tuning = tuning(),
                                    .percent = share(),
                                    .burst = burst(),
                                    .attend = attend,
                                    .never_wait = settings.is_hasty,
                                    .faults = my.remote.faults_device > 0 ? my.remote.faults_device : 0,
                                    .trace = *settings.trace ? settings.trace : NULL};
    struct window_result result = windows_make(&my.windows, &config);
    if (result.status == WINDOW_OK) {
        ranges_use(my.windows);
        return true;
    }
    bool is_short = result.status == WINDOW_NO_MEMORY || result.status == WINDOW_NO_MAPPING;
    remote_disconnect(&my.remote);
    if (is_short) {
        if (!my.was_short)
            log_line("%s: %s; it is tried again each second", window_status_words(result.status), strerror(result.cause));
        my.was_short = true;
        return false;
    }
    my.is_refused = true;
    bool is_denied = result.status == WINDOW_NO_PAGEMAP && result.cause == EACCES;
    ranges_refuse(is_denied ? "it may not open /proc/self/pagemap, for example since it has changed its user (QEMU's -runas)"
                            : window_status_words(result.status));
    return false;
}

/* Pages are lent by this host from now on. Where that can't be it is tried again later, not too often. */
static void attach(void) {
    struct window_lender lender = remote_lender(&my.remote);
    if (my.is_attached) windows_detach(my.windows), devices_closed(); /* (that closes a descriptor, too) */
    struct window_result result = windows_attach(my.windows, &lender);
    bool was_unattached = my.was_unattached;
    my.is_attached = result.status == WINDOW_OK;
    my.was_unattached = !my.is_attached;
    my.next_try_ns = now_ns() + retry_ns;
    if (my.is_attached) {
        pageshare_window_be_eager(&my.times);
        windows_give_credit(my.windows, FIRST_NS * (uint64_t)my.before.pages);
    } else if (!was_unattached) {
        log_line("the host's frames can't be used: %s (%s); it is tried again each second", window_status_words(result.status),
                 strerror(result.cause));
    }
}

static void report_no_host(int cause) {
    if (cause == EPROTONOSUPPORT)
        log_line("the host at %s is of another version than this library; it is tried again each second", settings.socket);
    else if (cause == ECONNRESET || cause == EPIPE)
        log_line("the host at %s refused the connection, and its log says why; it is tried again each second", settings.socket);
    else if (has_other_root()) log_line("no host at %s: the process has changed its root folder (chroot)", settings.socket);
    else log_line("no host at %s (%s); it is tried again each second", settings.socket, strerror(cause));
}

/* Where nothing changes nothing is said to the host, and so nothing is heard of its end. */
static void notice_end(void) {
    struct pollfd asked = {.fd = my.remote.socket, .events = POLLRDHUP};
    if (my.remote.socket >= 0 && poll(&asked, 1, 0) > 0 && (asked.revents & (POLLRDHUP | POLLHUP | POLLERR)) != 0)
        remote_disconnect(&my.remote);
}

/* Connects if there is no connection, and attaches its lender, not too often. Returns whether pages are lent by a host. */
static bool connect_host(void) {
    notice_end();
    bool is_connected = my.remote.socket >= 0;
    if (is_connected && my.is_attached) return true;
    if (my.is_refused || now_ns() < my.next_try_ns) return false;
    my.next_try_ns = now_ns() + retry_ns;
    if (is_connected) {
        attach();
        return my.is_attached;
    }
    enum remote_found found = remote_connect(&my.remote, settings.socket);
    if (found == REMOTE_NONE) {
        if (!my.was_reported) report_no_host(errno);
        my.was_reported = true;
        return false;
    }
    if (my.was_reported) log_note("connected to the host at %s", settings.socket);
    my.was_reported = false;
    if (my.windows) windows_pace(my.windows, share(), burst());
    else if (!make_windows()) return false;
    if (found == REMOTE_NEW || !my.is_attached) attach();
    else windows_taken_up(my.windows); /* the host has taken back what it lent in lost replies */
    return my.is_attached;
}

/* ---- looks ---- */

/* Prints what a look failed with: each status once, until many looks in turn have failed with nothing. */
static void report_look(struct window_result result) {
    bool is_good = result.status == WINDOW_OK, is_news = !is_good && (my.printed >> result.status & 1) == 0;
    my.good_looks = is_good ? my.good_looks + 1 : 0;
    if (my.good_looks >= FORGET_LOOKS) my.printed = 0;
    if (result.status == WINDOW_LENDER_FAILED) {
        if (my.remote.socket < 0 && !my.was_reported) {
            log_line("the host at %s doesn't answer (%s); what is shared stays, and it is tried again each second",
                     settings.socket, strerror(result.cause));
            my.was_reported = true;
        }
    } else if (is_news) {
        log_line("a look: %s%s%s", window_status_words(result.status), result.cause ? ": " : "",
                 result.cause ? strerror(result.cause) : "");
        my.printed |= 1u << result.status;
    }
}

/* Says once that the system's limit of mappings keeps pages private. */
static void report_crowd(const struct windows_counts *now) {
    if (now->pause != WINDOWS_CROWDED || my.was_crowded) return;
    my.was_crowded = true;
    size_t wanted = (now->pages / MANY_MAPPINGS + 1) * MANY_MAPPINGS;
    log_line("no more pages are lent: windows take %zu of the %zu mappings that they may; sysctl -w vm.max_map_count=%zu leaves "
             "room for all",
             now->mappings, now->mappings_most, wanted + wanted / 4);
}

/* ---- the thread's processor time ---- */

/* Credits what has become of pages since the last time. What lends took is credited as it was: on a busy computer they take longer. */
static void give_credits(const struct windows_counts *now) {
    const struct windows_counts *before = &my.at_chores;
    uint64_t shared = now->lends - before->lends + now->zeros - before->zeros;
    uint64_t new_pages = now->pages > before->pages ? now->pages - before->pages : 0;
    uint64_t lending_ns = now->map_ns - before->map_ns + now->lend_ns - before->lend_ns;
    uint64_t new_ns = FRESH_NS * (now->fresh - before->fresh) + FIRST_NS * new_pages;
    windows_give_credit(my.windows, new_ns + SHARED_NS * shared + lending_ns);
    my.at_chores = *now;
}

static void write_counts(const struct windows_counts *now);

/* Looks at all descriptors, if it is time. Those that came by a socket are seen here, and where pages are guarded. */
static void find_devices(void) {
    uint64_t begun_ns = now_ns(), spent_ns = clock_ns(CLOCK_THREAD_CPUTIME_ID);
    if (begun_ns < my.next_scan_ns) {
        ranges_found((enum devices)atomic_load(&seen_at_guards));
        return;
    }
    ranges_found(devices_open());
    uint64_t took_ns = clock_ns(CLOCK_THREAD_CPUTIME_ID) - spent_ns;
    my.next_scan_ns = pageshare_window_again(share(), begun_ns, took_ns, 0);
    uint64_t apart_ns = my.next_scan_ns - begun_ns;
    if (apart_ns <= retry_ns || my.was_slow) return;
    my.was_slow = true;
    log_line(
        "a look at all descriptors takes %.1f ms, so there is one in %.1f s: it may have a tenth of the thread's share of %u %%",
        (double)took_ns / 1e6, (double)apart_ns / 1e9, share());
}

/* What is to be done at the beginning of a look, and each second while one lasts. */
static void do_chores(void) {
    struct windows_counts counts;
    const unsigned limit = pausing_limit();
    find_devices();
    pausing_heed(my.is_memory_short);
    if (pausing_limit() != limit) windows_pace(my.windows, share(), burst());
    if (my.is_attached && my.remote.socket >= 0 && !pausing_is_on()) ranges_open(settings.flags);
    uint64_t begun_ns = now_ns(), spent_ns = clock_ns(CLOCK_THREAD_CPUTIME_ID);
    if (begun_ns < my.next_chores_ns) return;
    my.is_memory_short = memory_is_short();
    const struct windows_tuning now = tuning();
    windows_tune(my.windows, &now);
    windows_count(my.windows, &counts);
    give_credits(&counts);
    write_counts(&counts);
    my.next_chores_ns = pageshare_window_again(share(), begun_ns, clock_ns(CLOCK_THREAD_CPUTIME_ID) - spent_ns, chores_ns);
}

/* Whether a host listens at the socket. */
static bool is_host_there(void) {
    struct sockaddr_un name = {.sun_family = AF_UNIX};
    if (strlen(settings.socket) >= sizeof name.sun_path) return false;
    memcpy(name.sun_path, settings.socket, strlen(settings.socket) + 1);
    int asks = sharing_own(socket(AF_UNIX, SOCK_SEQPACKET | SOCK_CLOEXEC | SOCK_NONBLOCK, 0));
    bool is_there = asks >= 0 && connect(asks, (const struct sockaddr *)&name, sizeof name) == 0;
    if (asks >= 0) close(asks);
    return is_there;
}

/* Whether a look is to end: the host was lost in it, or is there again. */
static bool is_to_end(void) {
    bool is_connected = my.remote.socket >= 0;
    if (is_connected || my.was_connected) return my.was_connected && !is_connected;
    if (my.is_refused || now_ns() < my.next_try_ns) return false;
    my.next_try_ns = now_ns() + retry_ns;
    if (!is_host_there()) return false;
    my.next_try_ns = 0;
    return true;
}

/* In a look, as windows_config says. Returns whether the look goes on. */
static bool attend(void *unused) {
    (void)unused;
    do_chores();
    return !is_to_end();
}

/* Takes what the last look found: the proved library says when the next one begins, and which pages it asks about again. */
static void note_look(const struct windows_counts *now) {
    const struct windows_counts *before = &my.before;
    const struct pageshare_window_finds finds = {.took_ms = (now_ns() - my.look_begun_ns) / 1000000,
                                                 .spent_ns = now->look_ns - before->look_ns,
                                                 .found = now->lends - before->lends + (now->zeros - before->zeros),
                                                 .asked = now->asked - before->asked,
                                                 .again = now->again - before->again,
                                                 .pages = now->pages};
    if (now->windows > before->windows) pageshare_window_be_eager(&my.times);
    pageshare_window_look_ended(&my.times, &finds, my.is_attached);
    my.before = *now;
}

/* How many pages were held for less than 2^i microseconds each, with commas between. */
static void write_times(const uint64_t *held, char *text, size_t room) {
    size_t used = 0;
    text[0] = 0;
    for (size_t i = 0; i < WINDOWS_TIMES && used < room; i++)
        used += (size_t)snprintf(text + used, room - used, "%s%llu", i > 0 ? "," : "", (unsigned long long)held[i]);
}

/* The counts as JSON, for tests and operators. */
static void write_counts(const struct windows_counts *now) {
    char text[3584], held[WINDOWS_TIMES * 21];
    const struct windows_budget budget = windows_budget_of(my.windows);
    counts_file_write(now, pausing_state(), share(), pausing_limit());
    if (settings.counts < 0) return;
    write_times(now->held, held, sizeof held);
    int length = snprintf(
        text, sizeof text,
        "{\"connected\":%d,\"pause\":%d,\"windows\":%zu,\"pages\":%zu,\"lent\":%zu,\"zeros_now\":%zu,\"mappings\":%zu,"
        "\"mappings_most\":%zu,\"table_bytes\":%zu,\"looks\":%llu,"
        "\"lends\":%llu,\"copied\":%llu,\"zeros\":%llu,\"discarded\":%llu,\"taken_home\":%llu,\"asked\":%llu,\"seen\":%"
        "llu,\"changed\":%llu,"
        "\"pinned\":%llu,\"no_frame\":%llu,\"no_mapping\":%llu,\"lender_failures\":%llu,\"look_ns\":%llu,\"ask_ns\":%"
        "llu,\"lend_ns\":%llu,"
        "\"map_ns\":%llu,\"hold_most_ns\":%llu,\"processor_ns\":%llu,\"period_ms\":%u,\"devices\":%d,"
        "\"parts_whole\":%zu,\"parts_split\":%zu,\"parts_huge\":%zu,\"splits\":%llu,\"made_whole\":%llu,\"not_made_whole\":%llu,"
        "\"huge_from\":%u,\"reads\":%llu,\"fresh\":%llu,\"round_ms\":%llu,\"cpu_percent\":%u,\"credit_ms\":%llu,"
        "\"memory_is_short\":%d,\"turns\":%u,\"pages_of_mapping\":%.1f,\"held\":[%s]}\n",
        my.remote.socket >= 0, (int)now->pause, now->windows, now->pages, now->lent, now->zeros_now, now->mappings,
        now->mappings_most, now->table_bytes, (unsigned long long)now->looks, (unsigned long long)now->lends,
        (unsigned long long)now->copied, (unsigned long long)now->zeros, (unsigned long long)now->discarded,
        (unsigned long long)now->taken_home, (unsigned long long)now->asked, (unsigned long long)now->seen,
        (unsigned long long)now->changed, (unsigned long long)now->pinned, (unsigned long long)now->no_frame,
        (unsigned long long)now->no_mapping, (unsigned long long)now->lender_failures, (unsigned long long)now->look_ns,
        (unsigned long long)now->ask_ns, (unsigned long long)now->lend_ns, (unsigned long long)now->map_ns,
        (unsigned long long)now->hold_most_ns, (unsigned long long)clock_ns(CLOCK_THREAD_CPUTIME_ID), (unsigned)my.times.now_ms,
        (int)ranges_devices(), now->parts_whole, now->parts_split, now->parts_huge, (unsigned long long)now->splits,
        (unsigned long long)now->made_whole, (unsigned long long)now->not_made_whole, (unsigned)tuning().huge_from,
        (unsigned long long)now->reads, (unsigned long long)now->fresh, (unsigned long long)(now->round_ns / 1000000),
        budget.percent, (unsigned long long)(budget.credit_ns / 1000000), my.is_memory_short, my.times.turns,
        (double)now->lent / (double)(now->mappings + 1), held);
    bool fits = length > 0 && (size_t)length < sizeof text;
    if (!fits || pwrite(settings.counts, text, (size_t)length, 0) != length || ftruncate(settings.counts, length) != 0) {
        close(settings.counts);
        settings.counts = NOTHING;
    }
}

/* How long the thread sleeps until the next look. */
static uint64_t until_look_ms(void) {
    uint64_t took_ms = my.look_begun_ns > 0 ? (now_ns() - my.look_begun_ns) / 1000000 : 0;
    return pageshare_window_pause_ms(&my.times, took_ms);
}

/* One turn of the thread. */
static void turn(void) {
    struct windows_counts counts = {.windows = 0};
    connect_host();
    if (!my.windows) {
        pausing_heed(false);
        counts_file_write(&counts, pausing_state(), share(), pausing_limit());
        return;
    }
    if (ranges_have_early()) {
        do_chores();
        return;
    }
    my.look_begun_ns = now_ns();
    my.was_connected = my.remote.socket >= 0;
    report_look(windows_look(my.windows));
    windows_count(my.windows, &counts);
    report_crowd(&counts);
    note_look(&counts);
    write_counts(&counts);
}

/* Says which of the files that the library reads are denied to it, for example by a profile of AppArmor. */
static void report_denied(void) {
    static const char *const paths[] = {"/proc/self/pagemap",
                                        "/proc/self/smaps",
                                        "/proc/self/maps",
                                        "/proc/self/status",
                                        "/proc/self/fd",
                                        "/proc/self/fdinfo",
                                        "/proc/sys/fs/aio-nr",
                                        "/proc/sys/vm/max_map_count",
                                        "/proc/sys/vm/overcommit_memory",
                                        "/proc/meminfo",
                                        "/proc/pressure/memory",
                                        "/proc/self/ksm_merging_pages",
                                        "/sys/kernel/mm/transparent_hugepage/enabled"};
    for (size_t i = 0; i < sizeof paths / sizeof paths[0]; i++) {
        int file = (int)syscall(SYS_openat, AT_FDCWD, paths[i], O_RDONLY | O_CLOEXEC);
        if (file >= 0) syscall(SYS_close, file);
        else if (errno != ENOENT && errno != EOPNOTSUPP) /* (a kernel may have no huge pages, no KSM or no pressure) */
            log_line("%s: %s; less is lent for want of it, or nothing", paths[i], strerror(errno));
    }
}

void *connection_thread(void *unused) {
    pthread_setname_np(pthread_self(), "pageshare");
    sharing_stay_inside();
    report_denied();
    /* Threads that touch a page that is held wait for this one. (Where a higher priority isn't allowed it has the monitor's.) */
    if (getpriority(PRIO_PROCESS, 0) > FIRST_NICE) setpriority(PRIO_PROCESS, 0, FIRST_NICE);
    ask_for_short_slices();
    for (;;) {
        uint64_t pause_ms = until_look_ms();
        struct timespec pause = {.tv_sec = (time_t)(pause_ms / 1000), .tv_nsec = (long)(pause_ms % 1000) * 1000000};
        nanosleep(&pause, NULL);
        turn();
    }
    return unused;
}
