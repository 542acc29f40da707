#define _GNU_SOURCE
#include "trial.h"
#include "daemon/status.h"
#include "trouble.h"
#include <fcntl.h>
#include <signal.h>
#include <sys/mman.h>
#include <sys/prctl.h>
#include <sys/wait.h>

enum {
    TICK_MS = 200,
    BEGIN_SECONDS = 10,  /* until the host serves */
    END_SECONDS = 30,    /* until processes have compared all and ended */
    MISSES_MOST = 3,     /* statuses in turn that a busy host may not give */
    RELEASE_SECONDS = 10 /* until the host has taken back what they had lent */
};

/* The trial under way. */
static struct {
    char folder[PATH_MOST], socket[PATH_MOST];
    pid_t host, members[TRIAL_MEMBERS]; /* 0: there is none, or it has ended */
    int counts[TRIAL_MEMBERS];          /* the ends of pipes that the members' counts come by */
    sigset_t ends, before;              /* signals that end the trial, and those that were blocked before */
    bool is_ended;                      /* by one of them */
    int misses;                         /* statuses that the host didn't give, in turn */
} my;

/* Notes what is wrong, unless something was before. Returns false. */
__attribute__((format(printf, 2, 3))) static bool wrong(struct trial *trial, const char *form, ...) {
    va_list with;
    if (*trial->why) return false;
    va_start(with, form);
    vsnprintf(trial->why, sizeof trial->why, form, with);
    va_end(with);
    return false;
}

/* ---- processes ---- */

/* Starts this program with other words. Its standard output is `out`, or nothing if that is NOTHING. Returns its number, or -1. */
static pid_t start(const struct trial *trial, char *const words[], int out, int end_by) {
    pid_t self = getpid(), child = fork();
    if (child != 0) return child;
    int in = open("/dev/null", O_RDWR | O_CLOEXEC);
    prctl(PR_SET_PDEATHSIG, end_by);
    bool good = getppid() == self && in >= 0 && dup2(in, STDIN_FILENO) >= 0 && dup2(out >= 0 ? out : in, STDOUT_FILENO) >= 0 &&
                dup2(trial->said, STDERR_FILENO) >= 0 && sigprocmask(SIG_SETMASK, &my.before, NULL) == 0;
    if (good) execv("/proc/self/exe", words);
    _exit(MEMBER_CANT);
}

/* Waits for a tick, or a signal that ends the trial. */
static void tick(void) {
    const struct timespec patience = {.tv_nsec = TICK_MS * 1000000};
    if (sigtimedwait(&my.ends, NULL, &patience) > 0) my.is_ended = true;
}

/* Whether a process has ended; then `*status` is how. */
static bool has_ended(pid_t *process, int *status) {
    if (*process <= 0 || waitpid(*process, status, WNOHANG) != *process) return false;
    *process = 0;
    return true;
}

static void kill_process(pid_t *process) {
    if (*process <= 0 || kill(*process, SIGKILL) != 0) return; /* (it ends with this process, then) */
    while (waitpid(*process, NULL, 0) < 0 && errno == EINTR) {
    }
    *process = 0;
}

/* ---- the host ---- */

static bool start_host(struct trial *trial) {
    char domain[PATH_MOST + 8];
    snprintf(domain, sizeof domain, "check=%s", my.socket);
    char *const words[] = {"pageshare-host", "--domain", domain, "--memory", "64M", "--mode", "0600", "--trust-peers", NULL};
    struct status_totals totals;
    int status = 0;
    my.host = start(trial, words, NOTHING, SIGTERM);
    if (my.host < 0) return wrong(trial, "no process for a host: %s", strerror(errno));
    for (int ticks = 0; ticks < BEGIN_SECONDS * 1000 / TICK_MS && !my.is_ended; ticks++) {
        tick();
        if (has_ended(&my.host, &status)) return wrong(trial, "the host ended at once with status %d", WEXITSTATUS(status));
        if (access(my.socket, F_OK) == 0 && status_totals_of(my.socket, &totals)) return true;
    }
    return wrong(trial, "the host doesn't serve after %d s", BEGIN_SECONDS);
}

/* Ends the host, which takes its sockets away. */
static void end_host(struct trial *trial) {
    int status = 0;
    if (my.host > 0) kill(my.host, SIGTERM);
    for (int ticks = 0; my.host > 0 && ticks < BEGIN_SECONDS * 1000 / TICK_MS; ticks++) {
        if (has_ended(&my.host, &status) && status != 0) wrong(trial, "the host ended with a status (%x)", (unsigned)status);
        else if (my.host > 0) tick();
    }
    if (my.host > 0) wrong(trial, "the host doesn't end");
    kill_process(&my.host);
}

/* Asks the host how much is shared. Returns false if it doesn't say; after some times in turn that is wrong. */
static bool ask_host(struct trial *trial, struct status_totals *totals) {
    bool is_told = status_totals_of(my.socket, totals);
    my.misses = is_told ? 0 : my.misses + 1;
    if (my.misses > MISSES_MOST) wrong(trial, "the host gives no status: %s", strerror(errno));
    return is_told;
}

/* When its clients have ended the host counts nothing as lent. */
static void await_release(struct trial *trial) {
    struct status_totals totals = {.lent_pages = 0};
    for (int ticks = 0; ticks < RELEASE_SECONDS * 1000 / TICK_MS && !my.is_ended; ticks++) {
        bool is_told = ask_host(trial, &totals);
        if (*trial->why || (is_told && totals.lent_pages == 0 && totals.clients == 0)) return;
        tick();
    }
    if (!my.is_ended)
        wrong(trial, "%llu pages are counted as lent %d s after their processes have ended",
              (unsigned long long)totals.lent_pages, RELEASE_SECONDS);
}

/* ---- the members ---- */

/* The environment that the members have: nothing of an operator's for the library. What is preloaded already stays before it. */
static bool set_environment(const struct trial *trial) {
    static const char *const others[] = {"OFFER", "FILTER", "COUNTS", "TRACE", "HASTY", "DONTFORK"};
    char list[2 * CHECK_PATH_MOST], name[32];
    const char *before = getenv("LD_PRELOAD");
    for (size_t i = 0; i < sizeof others / sizeof *others; i++) {
        snprintf(name, sizeof name, "PAGESHARE_%s", others[i]);
        unsetenv(name);
    }
    int length = snprintf(list, sizeof list, "%s%s%s", before ? before : "", before ? ":" : "", trial->library);
    return length > 0 && (size_t)length < sizeof list && setenv("LD_PRELOAD", list, 1) == 0 &&
           setenv("PAGESHARE_SOCKET", my.socket, 1) == 0 && setenv("PAGESHARE_PERIOD_MS", "20", 1) == 0 &&
           setenv("PAGESHARE_CPU", "50", 1) == 0 && setenv("PAGESHARE_HUGE", "1", 1) == 0;
}

static bool start_member(struct trial *trial, size_t i, unsigned seconds) {
    char text[16];
    int ends[2];
    snprintf(text, sizeof text, "%u", seconds);
    char *const words[] = {"pageshare-host", "--check-member", text, NULL};
    if (pipe2(ends, O_CLOEXEC) != 0) return wrong(trial, "a pipe: %s", strerror(errno));
    my.counts[i] = ends[0];
    my.members[i] = start(trial, words, ends[1], SIGKILL);
    close(ends[1]);
    return my.members[i] > 0 || wrong(trial, "no process for the trial: %s", strerror(errno));
}

/* Takes what a member counted, of which it has written all when it has ended. */
static void add_counts(struct trial *trial, int from) {
    struct member_counts counts;
    if (read(from, &counts, sizeof counts) != sizeof counts) return;
    trial->done.compared += counts.compared;
    trial->done.written += counts.written;
    trial->done.discarded += counts.discarded;
    trial->done.children += counts.children;
    trial->done.by_guest += counts.by_guest;
    if (counts.kvm_cause != 0) trial->done.kvm_cause = counts.kvm_cause;
}

/* Looks which members have ended, and how. Returns how many run still. */
static int look_at_members(struct trial *trial) {
    int running = 0, status = 0;
    for (size_t i = 0; i < TRIAL_MEMBERS; i++) {
        pid_t process = my.members[i];
        if (has_ended(&my.members[i], &status)) {
            add_counts(trial, my.counts[i]);
            if (WIFSIGNALED(status)) wrong(trial, "process %d was ended by signal %d", (int)process, WTERMSIG(status));
            else if (WEXITSTATUS(status) == MEMBER_WRONG)
                wrong(trial, "process %d found another byte than it had written", (int)process);
            else if (status != 0) wrong(trial, "process %d couldn't go on (status %d)", (int)process, WEXITSTATUS(status));
        }
        running += my.members[i] > 0;
    }
    return running;
}

/* Notes how much is shared. */
static void look_at_host(struct trial *trial) {
    struct status_totals totals;
    int status;
    if (has_ended(&my.host, &status)) wrong(trial, "the host ended meanwhile (%x)", (unsigned)status);
    else if (ask_host(trial, &totals)) {
        trial->lends = totals.lends;
        if (totals.reclaimed_pages > trial->reclaimed_most) trial->reclaimed_most = totals.reclaimed_pages;
        if (totals.faults > 0) wrong(trial, "the host was sent what is no message");
    }
}

static void run_members(struct trial *trial, unsigned seconds) {
    uint64_t late_ns = now_ns() + (uint64_t)(seconds + END_SECONDS) * 1000000000u;
    for (size_t i = 0; i < TRIAL_MEMBERS; i++)
        if (!start_member(trial, i, seconds)) return;
    while (look_at_members(trial) > 0 && !*trial->why && !my.is_ended && now_ns() < late_ns) {
        tick();
        look_at_host(trial);
    }
    if (*trial->why || my.is_ended) return;
    if (look_at_members(trial) > 0) wrong(trial, "processes still run %d s after their time", END_SECONDS);
    else if (trial->lends == 0) wrong(trial, "nothing was shared");
    else await_release(trial);
}

/* ---- the whole ---- */

static bool begin(struct trial *trial) {
    const char *room = getenv("TMPDIR");
    int length = snprintf(my.folder, sizeof my.folder, "%s/pageshare-check-XXXXXX", room && *room == '/' ? room : "/tmp");
    if (length < 0 || (size_t)length + sizeof "/sock" > sizeof my.folder)
        return *my.folder = 0, wrong(trial, "TMPDIR is too long a path");
    if (!mkdtemp(my.folder)) {
        wrong(trial, "a folder for the trial, %s: %s", my.folder, strerror(errno));
        return *my.folder = 0, false;
    }
    snprintf(my.socket, sizeof my.socket, "%.*s/sock", length, my.folder);
    trial->said = memfd_create("pageshare-check", MFD_CLOEXEC);
    return trial->said >= 0 || wrong(trial, "a file in memory: %s", strerror(errno));
}

/* Removes the sockets, which the host has done unless it was killed, and the folder. What the system refuses is tried again. */
static bool remove_files(void) {
    enum { TRIES = 5 };
    char status[PATH_MOST + sizeof STATUS_SUFFIX];
    bool is_gone = false;
    snprintf(status, sizeof status, "%s%s", my.socket, STATUS_SUFFIX);
    for (int tries = 0; !is_gone && tries < TRIES; tries++) {
        if (tries > 0) tick();
        unlink(my.socket);
        unlink(status);
        is_gone = rmdir(my.folder) == 0;
    }
    return is_gone;
}

/* Nothing of the trial is left when this returns. */
static void end(struct trial *trial) {
    for (size_t i = 0; i < TRIAL_MEMBERS; i++) {
        kill_process(&my.members[i]);
        if (my.counts[i] >= 0) close(my.counts[i]);
    }
    end_host(trial);
    if (*my.folder && !remove_files()) wrong(trial, "%s can't be removed: %s", my.folder, strerror(errno));
}

void trial_run(struct trial *trial, unsigned seconds) {
    *trial = (struct trial){.said = NOTHING};
    sigemptyset(&my.ends);
    for (const int *it = (const int[]){SIGINT, SIGTERM, SIGHUP, 0}; *it; it++) sigaddset(&my.ends, *it);
    for (size_t i = 0; i < TRIAL_MEMBERS; i++) my.counts[i] = NOTHING;
    if (!check_find_library(trial->library)) {
        wrong(trial, "there is no libpageshare-window.so beside this program, nor where it is installed");
        return;
    }
    if (strpbrk(trial->library, ": ")) {
        wrong(trial, "a library in a folder whose path has a blank or a colon can't be preloaded");
        return;
    }
    if (sigprocmask(SIG_BLOCK, &my.ends, &my.before) != 0) wrong(trial, "signals: %s", strerror(errno));
    else if (begin(trial) && start_host(trial) && (set_environment(trial) || wrong(trial, "the environment is too large")))
        run_members(trial, seconds);
    end(trial);
    if (my.is_ended) wrong(trial, "a signal ended it");
    trial->is_right = !*trial->why;
}

void trial_say_lines(struct trial *trial) {
    enum { LINES_MOST = 12 };
    static char text[1 << 14];
    ssize_t got = !trial->is_right && trial->said >= 0 ? pread(trial->said, text, sizeof text - 1, 0) : 0;
    if (trial->said >= 0) close(trial->said);
    if (got <= 0) return;
    text[got] = 0;
    char *rest = text;
    for (int lines = 0; lines < LINES_MOST && rest && *rest; lines++) printf("  %s\n", strsep(&rest, "\n"));
}
