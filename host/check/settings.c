#define _GNU_SOURCE
/* Settings of the kernel, and its memory. */
#include "check.h"
#include "trouble.h"

static void check_mappings(void) {
    static const char path[] = "/proc/sys/vm/max_map_count";
    enum { OF_GIB = 262144, WANTED = 4194304 };
    long long most;
    if (!check_number(path, "", &most)) check_say_unread("mappings", path);
    else if (most >= WANTED)
        check_say(FOUND_GOOD, "mappings", NULL, "%lld in a process: enough for %lld GiB of scattered pages", most, most / OF_GIB);
    else
        check_say(FOUND_BAD, "mappings", "sysctl -w vm.max_map_count=4194304",
                  "%lld in a process: enough for %lld MiB of scattered pages", most, most / (OF_GIB / 1024));
}

static void check_overcommit(void) {
    static const char path[] = "/proc/sys/vm/overcommit_memory";
    long long mode;
    if (!check_number(path, "", &mode)) check_say_unread("overcommit", path);
    else if (mode != 2) check_say(FOUND_GOOD, "overcommit", NULL, "mode %lld: frames find memory as long as there is some", mode);
    else
        check_say(FOUND_BAD, "overcommit", "sysctl -w vm.overcommit_memory=0",
                  "mode 2: pages that need a frame may find no memory, and stay private");
}

static void check_huge(void) {
    static const char path[] = "/sys/kernel/mm/transparent_hugepage/enabled";
    char line[128];
    if (!check_line(path, "", line, sizeof line)) check_say_unread("huge pages", path);
    else if (strstr(line, "[never]")) check_say(FOUND_GOOD, "huge pages", NULL, "never: nothing has to be split to be shared");
    else
        check_say(FOUND_NOTE, "huge pages", NULL, "%s: one is split when 64 of its pages could be shared (PAGESHARE_HUGE)",
                  strstr(line, "[always]") ? "always" : "for memory that asks");
}

static void check_ksm(void) {
    static const char path[] = "/sys/kernel/mm/ksm/run";
    long long runs;
    if (!check_number(path, "", &runs)) check_say_unread("KSM", path);
    else if (runs != 1) check_say(FOUND_GOOD, "KSM", NULL, "doesn't run");
    else
        check_say(FOUND_NOTE, "KSM", "echo 0 > /sys/kernel/mm/ksm/run",
                  "runs: it leaves pages alone that are shared here, and its scans cost processor time besides");
}

static void check_memory(void) {
    static const char path[] = "/proc/meminfo";
    enum { PERCENTS = 100, SHORT = 10, LOCKED_KIB = 65536 /* less is no guest's */ };
    long long all, available, locked;
    if (!check_number(path, "MemTotal:", &all) || !check_number(path, "MemAvailable:", &available)) {
        check_say_unread("memory", path);
        return;
    }
    if (available * PERCENTS < all * SHORT)
        check_say(FOUND_BAD, "memory", "stop something, or give the domain less by --memory",
                  "%lld of %lld MiB available: frames may find none", available >> 10, all >> 10);
    else check_say(FOUND_GOOD, "memory", NULL, "%lld of %lld MiB available for frames and guests", available >> 10, all >> 10);
    if (!check_number(path, "Mlocked:", &locked)) check_say_unread("locked memory", path);
    else if (locked < LOCKED_KIB) check_say(FOUND_GOOD, "locked memory", NULL, "%lld MiB, so no guest's is", locked >> 10);
    else
        check_say(FOUND_NOTE, "locked memory", "start guests without mem-lock=on, in libvirt without <locked/>",
                  "%lld MiB: of a guest whose memory is locked nothing is shared", locked >> 10);
}

static void check_pressure(void) {
    static const char path[] = "/proc/pressure/memory";
    char line[128];
    if (check_line(path, "some", line, sizeof line))
        check_say(FOUND_GOOD, "pressure", NULL, "shown: huge pages are split when memory is short");
    else
        check_say(FOUND_NOTE, "pressure", "boot with psi=1", "%s: %s; huge pages are split late when memory is short", path,
                  strerror(errno));
}

void check_settings(void) {
    check_mappings();
    check_overcommit();
    check_huge();
    check_ksm();
    check_memory();
    check_pressure();
}
