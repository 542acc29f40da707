#define _GNU_SOURCE
/* Who may share, and what runs guests. */
#include "check.h"
#include "trouble.h"
#include <fcntl.h>
#include <grp.h>
#include <libgen.h>
#include <linux/kvm.h>
#include <pwd.h>
#include <signal.h>
#include <sys/ioctl.h>
#include <sys/wait.h>

static void check_user(void) {
    if (getpwnam("pageshare-host")) check_say(FOUND_GOOD, "host's user", NULL, "pageshare-host");
    else
        check_say(FOUND_NOTE, "host's user", "useradd --system pageshare-host",
                  "there is no user pageshare-host: run the host as one that no monitor has (--user)");
    if (getgrnam("kvm")) check_say(FOUND_GOOD, "monitors' group", NULL, "kvm, whose members may connect (--group)");
    else check_say(FOUND_NOTE, "monitors' group", "groupadd --system kvm", "there is no group kvm; name another by --group");
}

/* Whether a profile of AppArmor reads what the package adds for guests of libvirt. */
static void check_profile(void) {
    static const char profile[] = "/etc/apparmor.d/abstractions/libvirt-qemu", folder[] = "libvirt-qemu.d";
    static const char own[] = "/etc/apparmor.d/local/abstractions/libvirt-qemu",
                      ours[] = "/etc/apparmor.d/abstractions/libvirt-qemu.d/pageshare";
    static const char included[] = "  include if exists <abstractions/libvirt-qemu.d";
    char line[256];
    if (access(profile, F_OK) != 0) {
        check_say(FOUND_GOOD, "AppArmor", NULL, "runs, and has no profile of libvirt's guests");
        return;
    }
    bool is_there = access(ours, F_OK) == 0;
    bool is_read = check_line(profile, included, line, sizeof line) || check_line(own, included + 2, line, sizeof line) ||
                   check_line(own, included, line, sizeof line);
    if (is_there && is_read) check_say(FOUND_GOOD, "AppArmor", NULL, "guests of libvirt may share");
    else if (!is_there)
        check_say(FOUND_BAD, "AppArmor", "install the package pageshare-host, or the file as HOST says",
                  "%s isn't there: guests of libvirt share nothing", ours);
    else
        check_say(FOUND_BAD, "AppArmor", "add to that file: include if exists <abstractions/libvirt-qemu.d/pageshare>",
                  "%s doesn't read %s: guests of libvirt share nothing", own, folder);
}

static void check_confined(void) {
    char line[64];
    if (check_line("/sys/module/apparmor/parameters/enabled", "Y", line, sizeof line)) check_profile();
    else check_say(FOUND_GOOD, "AppArmor", NULL, "doesn't run");
    if (check_line("/sys/fs/selinux/enforce", "1", line, sizeof line))
        check_say(FOUND_NOTE, "SELinux", "semanage permissive -a svirt_t",
                  "enforces, was never tried, and there is no policy for it");
}

/* Reads what a child writes, which it does soon or never. */
static size_t read_end(int from, char *line, size_t room) {
    size_t used = 0;
    for (ssize_t got; used + 1 < room && (got = read(from, line + used, room - used - 1)) > 0;) used += (size_t)got;
    line[used] = 0;
    return used;
}

/* The first line that a program prints of its version. Returns false if it prints none within some seconds. */
static bool version_of(const char *program, char *line, size_t room) {
    enum { SECONDS = 5 };
    int ends[2];
    if (pipe2(ends, O_CLOEXEC) != 0) return false;
    pid_t child = fork();
    if (child == 0) {
        dup2(ends[1], STDOUT_FILENO);
        alarm(SECONDS);
        execl(program, program, "--version", (char *)NULL);
        _exit(127);
    }
    close(ends[1]);
    size_t used = child > 0 ? read_end(ends[0], line, room) : 0;
    close(ends[0]);
    if (child > 0) waitpid(child, NULL, 0);
    line[strcspn(line, "\n")] = 0;
    return used > 0;
}

static void say_qemu(const char *line) {
    bool is_tried = strstr(line, "version 7.2.") || strstr(line, "version 10.0.");
    check_say(is_tried ? FOUND_GOOD : FOUND_NOTE, "QEMU", NULL, "%s; 7.2 and 10.0 were tried", line);
}

static void check_qemu(void) {
    static const char *const programs[] = {"/usr/bin/qemu-system-x86_64", "/usr/libexec/qemu-kvm", "/usr/bin/qemu-kvm"};
    char line[256];
    for (size_t i = 0; i < sizeof programs / sizeof *programs; i++) {
        if (access(programs[i], X_OK) != 0) continue;
        if (!version_of(programs[i], line, sizeof line))
            check_say(FOUND_UNKNOWN, "QEMU", NULL, "%s prints no version", programs[i]);
        else say_qemu(line);
        return;
    }
    check_say(FOUND_NOTE, "QEMU", NULL, "none where Debian and Fedora install it");
}

static void check_kvm(void) {
    int device = open("/dev/kvm", O_RDWR | O_CLOEXEC);
    int version = device >= 0 ? ioctl(device, KVM_GET_API_VERSION, 0) : NOTHING;
    if (version >= 0)
        check_say(FOUND_NOTE, "KVM", NULL, "interface %d; the trial has guests of its own, and QEMU's were never tried", version);
    else check_say(FOUND_NOTE, "KVM", NULL, "/dev/kvm: %s", strerror(errno));
    if (device >= 0) close(device);
}

void check_installed(void) {
    check_user();
    check_confined();
    check_qemu();
    check_kvm();
}

bool check_find_library(char path[CHECK_PATH_MOST]) {
    static const char *const places[] = {"", "/../lib/x86_64-linux-gnu", "/../lib64", "/../lib"};
    char program[CHECK_PATH_MOST - 64];
    ssize_t length = readlink("/proc/self/exe", program, sizeof program - 1);
    if (length <= 0) return false;
    program[length] = 0;
    const char *folder = dirname(program);
    for (size_t i = 0; i < sizeof places / sizeof *places; i++) {
        snprintf(path, CHECK_PATH_MOST, "%s%s/libpageshare-window.so", folder, places[i]);
        if (access(path, R_OK) == 0) return true;
    }
    return (errno = ENOENT, false);
}
