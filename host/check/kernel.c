#define _GNU_SOURCE
/* What the kernel has: it is asked, whatever its version says. */
#include "check.h"
#include "newer.h"
#include "trouble.h"
#include <fcntl.h>
#include <grp.h>
#include <linux/seccomp.h>
#include <sys/prctl.h>

static const char device_path[] = "/dev/userfaultfd";
static const char by_user[] =
    "start the host as root with --user pageshare-host, or by its unit: it opens the device for its monitors";

/* The name of the device's group, or "?". */
static const char *group_of_device(void) {
    struct stat device;
    const struct group *group = stat(device_path, &device) == 0 ? getgrgid(device.st_gid) : NULL;
    return group ? group->gr_name : "?";
}

/* A userfaultfd that also holds up the kernel's own writes, as the library makes it: by the device, or by the call. Returns it, or -1. */
static int open_faults(void) {
    int device = open(device_path, O_RDWR | O_CLOEXEC), cause = errno;
    int faults = device >= 0 ? ioctl(device, USERFAULTFD_IOC_NEW, O_CLOEXEC | O_NONBLOCK) : NOTHING;
    if (device >= 0) close(device);
    if (faults >= 0) {
        check_say(FOUND_GOOD, "userfaultfd", NULL, "%s can be opened: writes wait while a page is compared", device_path);
        return faults;
    }
    faults = (int)syscall(SYS_userfaultfd, O_CLOEXEC | O_NONBLOCK);
    if (faults >= 0) check_say(FOUND_NOTE, "userfaultfd", NULL, "this user may make one; %s: %s", device_path, strerror(cause));
    else if (cause == EACCES || cause == EPERM)
        check_say(FOUND_BAD, "userfaultfd", by_user, "%s is for the group %s, and this user isn't in it", device_path,
                  group_of_device());
    else
        check_say(FOUND_BAD, "userfaultfd", "run Linux 6.8 or later", "%s: %s; nothing can be shared", device_path,
                  strerror(cause));
    return faults;
}

static void say_features(uint64_t has) {
    const uint64_t protects = UFFD_FEATURE_PAGEFAULT_FLAG_WP | UFFD_FEATURE_WP_HUGETLBFS_SHMEM;
    const char *newer = "run Linux 6.8 or later";
    if ((has & protects) == protects) check_say(FOUND_GOOD, "write guards", NULL, "of private and shared pages");
    else check_say(FOUND_BAD, "write guards", newer, "the kernel has none of shared pages: nothing can be shared");
    if (has & FEATURE_MOVE)
        check_say(FOUND_GOOD, "moving pages", NULL, "UFFDIO_MOVE, which leaves pages that a device has pinned");
    else check_say(FOUND_BAD, "moving pages", newer, "no UFFDIO_MOVE: a device could write to a shared page unnoticed");
}

static void check_faults(void) {
    struct uffdio_api asked = {.api = UFFD_API};
    int faults = open_faults();
    if (faults < 0) {
        check_say(FOUND_UNKNOWN, "write guards", NULL, "asked by a userfaultfd, and moving pages too");
        return;
    }
    if (ioctl(faults, UFFDIO_API, &asked) == 0) say_features(asked.features);
    else check_say_unread("write guards", "UFFDIO_API");
    close(faults);
}

static void check_scan(void) {
    struct scan scan = {.size = sizeof scan};
    static const char path[] = "/proc/self/pagemap";
    int file = open(path, O_RDONLY | O_CLOEXEC);
    if (file < 0) {
        check_say(FOUND_BAD, "page tables", NULL, "%s: %s; nothing can be shared", path, strerror(errno));
        return;
    }
    if (ioctl(file, SCAN_PAGES, &scan) >= 0) check_say(FOUND_GOOD, "page tables", NULL, "PAGEMAP_SCAN finds written pages fast");
    else
        check_say(FOUND_NOTE, "page tables", "run Linux 6.7 or later", "no PAGEMAP_SCAN (%s): scans take longer",
                  strerror(errno));
    close(file);
}

static void check_filter(void) {
    struct seccomp_notif_sizes sizes;
    const uint32_t shows = SECCOMP_RET_USER_NOTIF;
    bool can = syscall(SYS_seccomp, SECCOMP_GET_ACTION_AVAIL, 0, &shows) == 0 &&
               syscall(SYS_seccomp, SECCOMP_GET_NOTIF_SIZES, 0, &sizes) == 0;
    if (!can)
        check_say(FOUND_NOTE, "call filter", NULL, "none (%s): calls past the C library are found by scans, up to a second late",
                  strerror(errno));
    else if (prctl(PR_GET_SECCOMP) > 0)
        check_say(FOUND_NOTE, "call filter", NULL, "this process has a filter; if it has a listener, the library gets none");
    else
        check_say(FOUND_GOOD, "call filter", NULL,
                  "calls past the C library can be seen before they are made (PAGESHARE_FILTER)");
}

void check_kernel(void) {
    check_faults();
    check_scan();
    check_filter();
}
