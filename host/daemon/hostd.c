#define _GNU_SOURCE
/*
 * pageshare-host: owns the memory that processes of virtual machine monitors share, and decides by the proved library which of their
 * pages share a frame. One thread serves one domain. This file reads the options, makes the domains and waits for a signal. SIGHUP lets
 * the host begin anew with its settings as they are by then.
 */
#include "check/trial.h"
#include "domain.h"
#include "pageshare.h"
#include "pausing.h"
#include "ready.h"
#include "tables.h"
#include <fcntl.h>
#include <grp.h>
#include <pwd.h>
#include <signal.h>
#include <sys/prctl.h>
#include <sys/resource.h>

/* Clients guard their pages by a userfaultfd, which also has to hold up the kernel's own writes. Making one takes this device. */
static int open_faults_device(void) {
    int device = open("/dev/userfaultfd", O_RDWR | O_CLOEXEC);
    if (device < 0)
        log_line("/dev/userfaultfd: %s; only clients that may make a userfaultfd themselves can lend", strerror(errno));
    return device;
}

/* Becomes another user for good. */
static bool become(const char *name) {
    const struct passwd *user = getpwnam(name);
    if (!user) {
        log_line("--user %s: there is no such user", name);
        return false;
    }
    return (initgroups(name, user->pw_gid) == 0 && setgid(user->pw_gid) == 0 && setuid(user->pw_uid) == 0) || trouble(name);
}

/* A descriptor for each connection, process and buffer's file. */
static void raise_limits(void) {
    struct rlimit files;
    if (getrlimit(RLIMIT_NOFILE, &files) != 0) return;
    files.rlim_cur = files.rlim_max;
    if (setrlimit(RLIMIT_NOFILE, &files) != 0) trouble("limit of descriptors");
}

static bool start_all(struct domain *domains, const struct settings *settings, size_t *begun, int faults_device) {
    for (; *begun < settings->domain_count; ++*begun)
        if (!domain_bind(&domains[*begun], &settings->domains[*begun], faults_device)) return ++*begun, false;
    if (*settings->user && !become(settings->user)) return false;
    if (prctl(PR_SET_NO_NEW_PRIVS, 1, 0, 0, 0) != 0) return trouble("prctl"); /* no program that it could run has more rights */
    if (prctl(PR_SET_DUMPABLE, 0) != 0) trouble("prctl"); /* processes of the same user can't reach into this one */
    for (size_t i = 0; i < settings->domain_count; i++)
        if (!domain_make(&domains[i])) return false;
    tables_give_zeros_back();
    for (size_t i = 0; i < settings->domain_count; i++)
        if (!domain_start(&domains[i])) return false;
    return true;
}

enum outcome { OUTCOME_END, OUTCOME_FAILED, OUTCOME_ANEW };

/* Waits for a signal that ends the host, or lets it begin anew. Settings that are wrong by then change nothing. */
static enum outcome wait_for(const sigset_t *signals, const struct settings *settings, int count, char **words) {
    static struct settings later;
    for (int got; sigwait(signals, &got) == 0;) {
        if (got != SIGHUP) return OUTCOME_END;
        if (*settings->user) log_line("SIGHUP: a host with --user can't begin anew; restart it");
        else if (settings_read(&later, count, words)) return OUTCOME_ANEW;
        else log_line("SIGHUP: the settings stay as they were");
    }
    return OUTCOME_FAILED;
}

/* Serves until a signal comes. */
static enum outcome serve_all(const struct settings *settings, int count, char **words) {
    static struct domain domains[DOMAINS_MOST];
    size_t begun = 0;
    sigset_t ends;
    int faults_device = open_faults_device();
    prctl(PR_SET_NAME, "pageshare-host"); /* (one that has begun anew is called exe) */
    sigemptyset(&ends);
    sigaddset(&ends, SIGINT);
    sigaddset(&ends, SIGTERM);
    sigaddset(&ends, SIGHUP);
    if (sigprocmask(SIG_BLOCK, &ends, NULL) != 0 || signal(SIGPIPE, SIG_IGN) == SIG_ERR)
        return trouble("signals"), OUTCOME_FAILED;
    raise_limits();
    if (prctl(PR_SET_THP_DISABLE, 1, 0, 0, 0) != 0) trouble("prctl"); /* a huge page would take memory for 512 pages of zeros */
    bool good = start_all(domains, settings, &begun, faults_device);
    for (size_t i = 0; good && i < begun; i++)
        log_note("domain %s serves at %s: up to %u clients, %llu MiB of frames", settings->domains[i].name,
                 settings->domains[i].socket, settings->domains[i].clients,
                 (unsigned long long)(settings->domains[i].memory >> 20));
    if (good) ready_say();
    enum outcome outcome = good ? wait_for(&ends, settings, count, words) : OUTCOME_FAILED;
    for (size_t i = 0; i < begun; i++) domain_end(&domains[i]);
    if (faults_device >= 0) close(faults_device);
    return outcome;
}

/* Begins anew in the same process, of which nothing is left: each descriptor closes by itself. Returns only if that fails. */
static int begin_anew(char **words) {
    log_note("SIGHUP: the host begins anew");
    execv("/proc/self/exe", words);
    trouble("/proc/self/exe");
    return 1;
}

int main(int count, char **words) {
    static struct settings settings;
    if (!settings_read(&settings, count, words)) return 2;
    switch (settings.task) {
    case TASK_HELP: return fputs(settings_help, stdout) < 0;
    case TASK_VERSION: return puts("pageshare-host " PAGESHARE_VERSION) < 0;
    case TASK_STATUS: return status_show(settings.status, settings.form, settings.watch);
    case TASK_CHECK: return check_show(settings.seconds);
    case TASK_MEMBER: return member_run(settings.seconds);
    case TASK_PAUSE:
    case TASK_RESUME: return pausing_ask(settings.guest, settings.task == TASK_PAUSE);
    case TASK_LIMIT: return pausing_limit(settings.guest, settings.percent);
    case TASK_SERVE: break;
    }
    enum outcome outcome = serve_all(&settings, count, words);
    return outcome == OUTCOME_ANEW ? begin_anew(words) : outcome == OUTCOME_FAILED;
}
