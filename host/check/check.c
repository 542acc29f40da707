#define _GNU_SOURCE
#include "check.h"
#include "lines.h"
#include "pageshare.h"
#include "trial.h"
#include "trouble.h"
#include <sys/utsname.h>

void check_say(enum finding finding, const char *what, const char *mend, const char *form, ...) {
    static const char *const words[] = {
        [FOUND_GOOD] = "good", [FOUND_NOTE] = "note", [FOUND_BAD] = "BAD", [FOUND_UNKNOWN] = "unknown"};
    va_list with;
    va_start(with, form);
    printf("%-8s %-15s ", words[finding], what);
    vprintf(form, with);
    va_end(with);
    printf("\n");
    if (mend) printf("%-8s %-15s %s\n", "", "  mend it by:", mend);
}

void check_say_unread(const char *what, const char *path) {
    check_say(FOUND_UNKNOWN, what, NULL, "%s: %s", path, errno == ENODATA ? "it has no such line" : strerror(errno));
}

bool check_line(const char *path, const char *begin, char *line, size_t room) {
    struct lines lines;
    const char *found = NULL;
    int cause = lines_open(&lines, path);
    if (cause != 0) return (errno = cause, false);
    do found = lines_next(&lines);
    while (found && strncmp(found, begin, strlen(begin)) != 0);
    if (found) snprintf(line, room, "%s", found);
    cause = lines.cause ? lines.cause : ENODATA;
    lines_close(&lines);
    return found || (errno = cause, false);
}

bool check_number(const char *path, const char *begin, long long *number) {
    char line[128];
    if (!check_line(path, begin, line, sizeof line)) return false;
    return sscanf(line + strlen(begin), "%lld", number) == 1 || (errno = ENODATA, false);
}

static void say_where(void) {
    struct utsname system;
    char user[32] = "root";
    if (uname(&system) != 0) snprintf(system.release, sizeof system.release, "?");
    if (geteuid() != 0) snprintf(user, sizeof user, "user %u", (unsigned)geteuid());
    printf("pageshare-host " PAGESHARE_VERSION " on Linux %s, as %s\n", system.release, user);
}

/* What came of the trial. */
static void say_trial(const struct trial *trial, unsigned seconds) {
    const struct member_counts *done = &trial->done;
    printf("\ntrial of %u s: %d processes of %d MiB each under %s\n", seconds, TRIAL_MEMBERS, MEMBER_MIB, trial->library);
    printf("  %llu pages compared, %llu written, %llu discarded, %llu children; %llu pages lent, at most %.1f MiB reclaimed at a "
           "time\n",
           (unsigned long long)done->compared, (unsigned long long)done->written, (unsigned long long)done->discarded,
           (unsigned long long)done->children, (unsigned long long)trial->lends,
           (double)trial->reclaimed_most * PAGE / (1 << 20));
    if (done->kvm_cause == 0)
        printf("  each process had a guest of some instructions under KVM: %llu pages compared by these\n",
               (unsigned long long)done->by_guest);
    else printf("  no guest under KVM: /dev/kvm: %s\n", strerror((int)done->kvm_cause));
    if (trial->is_right) printf("right: each byte was as written\n");
    else printf("WRONG: %s\n", trial->why);
}

int check_show(unsigned seconds) {
    static struct trial trial;
    say_where();
    check_kernel();
    check_settings();
    check_installed();
    if (fflush(stdout) != 0) return trouble("standard output"), 1;
    trial_run(&trial, seconds);
    say_trial(&trial, seconds);
    trial_say_lines(&trial);
    if (fflush(stdout) != 0) return trouble("standard output"), 1;
    return trial.is_right ? 0 : 1;
}
