#define _GNU_SOURCE
#include "pausing.h"
#include "naming.h"
#include "trouble.h"
#include <dirent.h>
#include <fcntl.h>
#include <poll.h>

enum { TICK_MS = 200, PAUSE_SECONDS = 60, RESUME_SECONDS = 10 };

/* A guest that is asked. */
struct asked {
    uint64_t process;
    char name[GUEST_NAME_MOST];
    int counts; /* its file */
    int end;    /* readable when its process has ended */
    uint64_t wanted;
};

static bool is_number(const char *text) { return *text && strspn(text, "0123456789") == strlen(text); }

/* How many processes that share have a guest of this name; `*process` is one of them. */
static unsigned find_named(const char *wanted, uint64_t *process) {
    DIR *processes = opendir("/proc");
    unsigned found = 0;
    char name[GUEST_NAME_MOST];
    for (const struct dirent *it; processes && (it = readdir(processes)) != NULL;) {
        if (!is_number(it->d_name)) continue;
        uint64_t number = strtoull(it->d_name, NULL, 10);
        naming_of_guest(number, name);
        if (strcmp(name, wanted) != 0) continue;
        int counts = naming_open_counts(number, O_RDONLY);
        if (counts < 0 && errno == ENOENT) continue; /* (a process that is none of the library's, such as one that starts it) */
        if (counts >= 0) close(counts);
        *process = number;
        found++;
    }
    if (processes) closedir(processes);
    return found;
}

/* Finds the process of a guest. Returns false after it has printed why there is none. */
static bool find(const char *whom, uint64_t *process) {
    unsigned found = find_named(whom, process);
    if (found == 1) return true;
    if (found > 1) log_line("%u guests are called %s: give the number of the process (see --status)", found, whom);
    else if (is_number(whom)) return *process = strtoull(whom, NULL, 10), true;
    else log_line("no guest that is called %s shares memory (see --status)", whom);
    return false;
}

/* Opens what is needed of its process. Returns false after it has printed why that can't be. */
static bool open_guest(struct asked *guest) {
    struct counts counts;
    unsigned long long process = guest->process;
    guest->end = (int)syscall(SYS_pidfd_open, (pid_t)process, 0);
    if (guest->end < 0) return log_line("process %llu: %s", process, strerror(errno)), false;
    guest->counts = naming_open_counts(process, O_RDWR);
    if (guest->counts < 0) {
        if (errno == ENOENT) log_line("process %llu shares no memory, or has a library of another version", process);
        else log_line("process %llu: %s; ask as root", process, strerror(errno));
        return false;
    }
    naming_of_guest(process, guest->name);
    if (naming_read_counts(guest->counts, &counts)) return true;
    log_line("process %llu has a library of another version", process);
    return false;
}

static bool has_ended(const struct asked *guest, int wait_ms) {
    struct pollfd end = {.fd = guest->end, .events = POLLIN};
    return poll(&end, 1, wait_ms) > 0;
}

/* Prints what came of the question. */
static void say(const struct asked *guest, const char *what) {
    printf("guest %s, process %llu: %s\n", *guest->name ? guest->name : "-", (unsigned long long)guest->process, what);
}

/* Waits until all memory is the guest's own. Returns the process's status. */
static int await_pause(const struct asked *guest) {
    struct counts counts = {.state = COUNTS_SHARES};
    char text[160];
    for (int ticks = 0; ticks < PAUSE_SECONDS * 1000 / TICK_MS; ticks++) {
        if (has_ended(guest, TICK_MS)) return log_line("process %llu has ended meanwhile", (unsigned long long)guest->process), 1;
        naming_read_counts(guest->counts, &counts);
        if (counts.state == COUNTS_PAUSED) return say(guest, "all of its memory is its own; it shares nothing until --resume"), 0;
        if (counts.state != COUNTS_STAYS) continue;
        say(guest,
            "all of its memory is its own; a device may have pinned pages, so parts won't be shared after --resume, either");
        return 0;
    }
    const char *why = counts.state == COUNTS_SHARES  ? "its library hasn't begun"
                      : counts.state == COUNTS_WAITS ? "it waits until the computer has memory, or a snapshot or migration ends"
                                                     : "that goes on by itself";
    snprintf(text, sizeof text, "after %d s %.1f MiB aren't its own yet; %s", PAUSE_SECONDS,
             (double)counts.lent * PAGE / (1 << 20), why);
    say(guest, text);
    return PAUSING_LATE;
}

static int await_resume(const struct asked *guest) {
    struct counts counts = {.state = COUNTS_PAUSED};
    for (int ticks = 0; ticks < RESUME_SECONDS * 1000 / TICK_MS; ticks++) {
        if (has_ended(guest, TICK_MS)) return log_line("process %llu has ended meanwhile", (unsigned long long)guest->process), 1;
        naming_read_counts(guest->counts, &counts);
        if (counts.state == COUNTS_SHARES) return say(guest, "it shares again"), 0;
    }
    return say(guest, "its library hasn't begun to share again; that goes on by itself"), PAUSING_LATE;
}

/* Waits until the library has heard of the limit. */
static int await_limit(const struct asked *guest) {
    struct counts counts;
    char text[96];
    for (int ticks = 0; ticks < RESUME_SECONDS * 1000 / TICK_MS; ticks++) {
        if (has_ended(guest, TICK_MS)) return log_line("process %llu has ended meanwhile", (unsigned long long)guest->process), 1;
        if (!naming_read_counts(guest->counts, &counts) || counts.limit != guest->wanted) continue;
        snprintf(text, sizeof text, "sharing may use %llu %% of a processor%s", (unsigned long long)counts.percent,
                 guest->wanted ? ", also for what is new" : "; no operator limits it");
        return say(guest, text), 0;
    }
    return say(guest, "its library hasn't heard of the limit; it will by itself"), PAUSING_LATE;
}

/* Writes what is wanted to the place for it in a guest's file, and waits for what comes of it. Returns the process's status. */
static int ask(const char *whom, uint64_t wanted, size_t at, int await(const struct asked *guest)) {
    struct asked guest = {.counts = NOTHING, .end = NOTHING, .wanted = wanted};
    int status = 1;
    if (find(whom, &guest.process) && open_guest(&guest)) {
        if (pwrite(guest.counts, &wanted, sizeof wanted, (off_t)(COUNTS_WANTED_AT + at)) != (ssize_t)sizeof wanted)
            trouble("the guest's file");
        else status = await(&guest);
    }
    if (guest.counts >= 0) close(guest.counts);
    if (guest.end >= 0) close(guest.end);
    return fflush(stdout) != 0 ? 1 : status;
}

int pausing_ask(const char *whom, bool pauses) {
    return ask(whom, pauses ? COUNTS_PAUSE : COUNTS_SHARE, offsetof(struct counts_wanted, sharing),
               pauses ? await_pause : await_resume);
}

int pausing_limit(const char *whom, unsigned percent) {
    return ask(whom, percent, offsetof(struct counts_wanted, limit), await_limit);
}
