#define _GNU_SOURCE
#include "devices.h"
#include "lines.h"
#include "trouble.h"
#include <ctype.h>
#include <fcntl.h>
#include <linux/kvm.h>
#include <linux/nvme_ioctl.h>
#include <linux/vfio.h>
#include <linux/vhost.h>
#include <sched.h>
#include <scsi/sg.h>
#include <stdatomic.h>
#include <sys/socket.h>
#include <sys/utsname.h>
#include <sys/vfs.h>

/* IOMMU_IOAS_MAP of linux/iommufd.h, which older systems' headers lack. */
#define MAP_BY_IOMMUFD _IO(';', 0x85)

static bool begins(const char *text, const char *with) { return strncmp(text, with, strlen(with)) == 0; }

/* ---- paths ---- */

/* Whether a path is a name with a number behind it, such as /dev/sg0. What follows the number may be anything. */
static bool is_numbered(const char *path, const char *name) {
    return begins(path, name) && isdigit((unsigned char)path[strlen(name)]);
}

/* Devices that write to all memory that they are given, and those of which it isn't known that they pin what they write to. */
static bool writes_unnoticed(const char *path) {
    static const char *const names[] = {"/dev/vfio/", "/dev/vhost-vdpa", "/dev/vhost-scsi", "/dev/bsg/", "/dev/infiniband/"};
    for (size_t i = 0; i < sizeof names / sizeof names[0]; i++)
        if (begins(path, names[i])) return true;
    if (is_numbered(path, "/dev/sg") || is_numbered(path, "/dev/ng")) return true; /* (not /dev/sgx_vepc) */
    if (strcmp(path, "/dev/iommu") == 0) return true;
    /* (a controller, such as /dev/nvme0; /dev/nvme0n1 is a disk) */
    return begins(path, "/dev/nvme") && !strchr(path + strlen("/dev/nvme"), 'n');
}

bool devices_may_be(const char *path, int flags) { return (flags & O_DIRECT) != 0 || (path && begins(path, "/dev/")); }

/* ---- requests ---- */

/* Whether a guest's processor has vmx or svm: it may run virtual machines of its own then. */
static bool has_nesting(const struct kvm_cpuid2 *leaves) {
    enum { FEATURES = 1, VMX = 1 << 5, SVM = 1 << 2 };
    const uint32_t more_features = 0x80000001;
    for (uint32_t i = 0; i < leaves->nent; i++) {
        const struct kvm_cpuid_entry2 *leaf = &leaves->entries[i];
        if ((leaf->function == FEATURES && (leaf->ecx & VMX)) || (leaf->function == more_features && (leaf->ecx & SVM)))
            return true;
    }
    return false;
}

/* Whether this kernel is of a version, or a later one. */
static bool is_linux(unsigned major, unsigned minor) {
    struct utsname name;
    unsigned has_major = 0, has_minor = 0;
    if (uname(&name) != 0 || sscanf(name.release, "%u.%u", &has_major, &has_minor) != 2) return false;
    return has_major > major || (has_major == major && has_minor >= minor);
}

/* KVM pins the pages of a guest's own virtual machines since Linux 6.13; before it writes to them unnoticed. */
static enum devices of_processor(const struct kvm_cpuid2 *leaves) {
    if (!leaves || !has_nesting(leaves)) return DEVICES_NONE;
    return is_linux(6, 13) ? DEVICES_PIN_PAGES : DEVICES_WRITE_ALL;
}

/* By which a device is given memory to which it may write unnoticed. */
static const uint32_t giving[] = {VFIO_IOMMU_MAP_DMA,   MAP_BY_IOMMUFD,    VHOST_VDPA_SET_STATUS, SG_IO,
                                  NVME_IOCTL_SUBMIT_IO, NVME_IOCTL_IO_CMD, NVME_IOCTL_IO64_CMD};
enum { GIVING = sizeof giving / sizeof *giving };

size_t devices_requests(uint32_t requests[], size_t most) {
    if (most < GIVING + 1) return 0;
    memcpy(requests, giving, sizeof giving);
    requests[GIVING] = KVM_SET_CPUID2;
    return GIVING + 1;
}

enum devices devices_of_request(unsigned long request, const void *with) {
    for (size_t i = 0; i < GIVING; i++)
        if ((uint32_t)request == giving[i]) return DEVICES_WRITE_ALL; /* (the system takes 32 bits of it) */
    return (uint32_t)request == KVM_SET_CPUID2 ? of_processor(with) : DEVICES_NONE;
}

/* ---- descriptors ---- */

/* Which of this process's descriptors are left out; NULL: none. */
static bool (*is_left_out)(int descriptor);

void devices_leave_out(bool (*are)(int descriptor)) { is_left_out = are; }

enum { RINGS_MOST = 16 };

/* What descriptors a process has, of those that matter. */
struct seen {
    bool is_self;          /* it is this process */
    int info;              /* its folder fdinfo */
    bool is_worst;         /* one that writes unnoticed */
    bool has_direct;       /* a file by O_DIRECT, of a file system that is known to pin pages */
    bool has_uncached;     /* a file of a file system that may pin pages without O_DIRECT, too */
    bool has_registered;   /* an io_uring with registered buffers, or files, which may be by O_DIRECT; or an AF_XDP socket */
    dev_t cached;          /* a file system that doesn't; 0: none was asked yet */
    size_t rings_count;    /* of io_urings, which may read by O_DIRECT */
    int rings[RINGS_MOST]; /* the first of them */
};

/* Reads a file, such as fdinfo/NAME. Returns false if it can't be read. */
static bool read_text(int folder, const char *name, char *text, size_t room) {
    int file = (int)syscall(SYS_openat, folder, name, O_RDONLY | O_CLOEXEC, 0);
    if (file < 0) return false;
    ssize_t got = syscall(SYS_read, file, text, room - 1);
    syscall(SYS_close, file);
    if (got <= 0) return false;
    text[got] = 0;
    return true;
}

/* Whether an io_uring has registered something. While it is being used the kernel doesn't say: then it may have. */
static bool has_registered(int info, const char *name) {
    enum { TRIES = 20 };
    char text[4096];
    for (int i = 0; i < TRIES; i++) {
        bool is_read = read_text(info, name, text, sizeof text);
        const char *files = is_read ? strstr(text, "UserFiles:") : NULL, *buffers = is_read ? strstr(text, "UserBufs:") : NULL;
        if (files && strtoul(files + strlen("UserFiles:"), NULL, 10) != 0) return true;
        if (files && buffers) return strtoul(buffers + strlen("UserBufs:"), NULL, 10) != 0;
        sched_yield();
    }
    return true;
}

/* The flags with which a descriptor of this process was opened; 0 if it is closed by now. */
static int flags_of(int descriptor) {
    int flags = (int)syscall(SYS_fcntl, descriptor, F_GETFL);
    return flags < 0 ? 0 : flags;
}

static bool is_direct(const struct seen *seen, const char *name) {
    char text[1024];
    if (seen->is_self) return flags_of(atoi(name)) & O_DIRECT; /* (takes a twentieth of the time) */
    const char *at = read_text(seen->info, name, text, sizeof text) ? strstr(text, "flags:") : NULL;
    return at && (strtoul(at + strlen("flags:"), NULL, 8) & O_DIRECT) != 0;
}

/* ---- file systems ---- */

static const unsigned long NO_TYPE = 0, UNTOLD = ~0ul;

/* The type of the file system of a file; NO_TYPE: there is no such file any more; UNTOLD: the file system doesn't say. */
static unsigned long type_of(int file) {
    struct statfs system;
    if (fstatfs(file, &system) == 0) return (unsigned long)system.f_type;
    return errno == EBADF ? NO_TYPE : UNTOLD;
}

static bool is_among(unsigned long type, const unsigned long *types, size_t count) {
    for (size_t i = 0; i < count; i++)
        if (type == types[i]) return true;
    return false;
}

/* Reads by O_DIRECT of these are known to pin pages as UFFDIO_MOVE sees it (Linux 6.5); others go through the page cache. */
static bool is_known_to_pin(unsigned long type) {
    static const unsigned long known[] = {0xef53 /* ext */, 0x58465342 /* xfs */, 0x9123683e /* btrfs */, 0xf2f52010 /* f2fs */,
                                          0x01021994 /* tmpfs, which copies */};
    return is_among(type, known, sizeof known / sizeof known[0]);
}

/* These may read past the page cache without O_DIRECT, as their server or their mount says. It isn't known how they pin pages then. */
static bool is_uncached(unsigned long type) {
    static const unsigned long uncached[] = {0x65735546 /* FUSE */, 0x01021997 /* 9p */, 0xff534d42 /* SMB */, 0xfe534d42,
                                             0x517b};
    return type == UNTOLD || is_among(type, uncached, sizeof uncached / sizeof uncached[0]);
}

bool devices_pin_plainly(int file) {
    struct stat facts;
    return fstat(file, &facts) == 0 && S_ISREG(facts.st_mode) && !is_known_to_pin(type_of(file));
}

enum devices devices_of_file(int file) {
    if (is_uncached(type_of(file))) return DEVICES_WRITE_ALL;
    return (flags_of(file) & O_DIRECT) != 0 ? DEVICES_PIN_PAGES : DEVICES_NONE;
}

/* Notes a file that was opened without O_DIRECT. */
static void note_plain(struct seen *seen, int file, dev_t device) {
    if (device == seen->cached) return;
    bool is_one = is_uncached(type_of(file));
    seen->has_uncached = seen->has_uncached || is_one;
    if (!is_one) seen->cached = device;
}

/* The same of one of another process. */
static void note_plain_at(struct seen *seen, int folder, const char *name) {
    struct stat facts;
    int file = (int)syscall(SYS_openat, folder, name, O_PATH | O_CLOEXEC, 0);
    if (file < 0) return;
    if (fstat(file, &facts) == 0 && S_ISREG(facts.st_mode)) note_plain(seen, file, facts.st_dev);
    syscall(SYS_close, file);
}

/* Whether reads of a file by O_DIRECT are known to pin pages: on disks and on some file systems. So they are of one that is closed by now. */
static bool pins_as_known(int folder, const char *name) {
    struct stat facts;
    int file = (int)syscall(SYS_openat, folder, name, O_PATH | O_CLOEXEC, 0);
    if (file < 0) return errno == ENOENT;
    bool is_known = fstat(file, &facts) == 0 && (S_ISBLK(facts.st_mode) || is_known_to_pin(type_of(file)));
    syscall(SYS_close, file);
    return is_known;
}

/* ---- one descriptor ---- */

/* Whether a socket is one with which memory may be registered, to which a network card writes. */
static bool is_xdp(int descriptor) {
    int domain = 0;
    socklen_t bytes = sizeof domain;
    return getsockopt(descriptor, SOL_SOCKET, SO_DOMAIN, &domain, &bytes) == 0 && domain == AF_XDP;
}

/* Whether a descriptor of this process is of no kind whose name matters: most are, and a look at their names takes long. */
static bool is_harmless(struct seen *seen, int descriptor) {
    struct stat file;
    if (fstat(descriptor, &file) != 0 || S_ISFIFO(file.st_mode)) return true;
    if (S_ISSOCK(file.st_mode)) {
        seen->has_registered = seen->has_registered || is_xdp(descriptor);
        return true;
    }
    bool is_plain = (S_ISREG(file.st_mode) || S_ISDIR(file.st_mode)) && (flags_of(descriptor) & O_DIRECT) == 0;
    if (is_plain && S_ISREG(file.st_mode)) note_plain(seen, descriptor, file.st_dev);
    return is_plain;
}

static void add(struct seen *seen, int folder, const char *name) {
    char target[64];
    if (seen->is_self && is_harmless(seen, atoi(name))) return;
    ssize_t got = readlinkat(folder, name, target, sizeof target - 1);
    if (got <= 0) return;
    target[got] = 0;
    if (strcmp(target, "anon_inode:[io_uring]") == 0) {
        if (seen->rings_count < RINGS_MOST) seen->rings[seen->rings_count] = atoi(name);
        seen->rings_count++;
        seen->has_registered = seen->has_registered || has_registered(seen->info, name);
    } else if (*target == '/') {
        seen->is_worst = seen->is_worst || writes_unnoticed(target);
        bool is_plain = !is_direct(seen, name);
        if (is_plain && !seen->is_self) note_plain_at(seen, folder, name);
        if (is_plain) return;
        bool is_known = pins_as_known(folder, name);
        seen->has_direct = seen->has_direct || is_known;
        seen->is_worst = seen->is_worst || !is_known;
    }
}

/* ---- requests of io_submit ---- */

/* The system's number of requests that io_setup has reserved, for all processes; -1 if it doesn't say. */
static long reserved_requests(void) {
    char text[32];
    return read_text(AT_FDCWD, "/proc/sys/fs/aio-nr", text, sizeof text) ? strtol(text, NULL, 10) : -1;
}

/* Opens a file or folder of a process, such as "self". Returns a descriptor or -1. */
static int open_of(const char *process, const char *name, int flags) {
    char path[64];
    snprintf(path, sizeof path, "/proc/%.20s/%s", process, name);
    return (int)syscall(SYS_openat, AT_FDCWD, path, O_RDONLY | O_CLOEXEC | flags, 0);
}

/* Whether a process has called io_setup: then it has a mapping of that name. */
static bool has_requests_mapped(const char *process) {
    struct lines lines;
    bool has = false;
    int maps = open_of(process, "maps", 0);
    if (maps < 0) return true;
    lines_of(&lines, maps);
    for (const char *line; !has && (line = lines_next(&lines)) != NULL;) has = strstr(line, "/[aio]") != NULL;
    syscall(SYS_close, maps);
    return has || lines.cause != 0;
}

static atomic_bool submits;    /* it was said that the process does */
static atomic_bool has_ring;   /* and that it may have an io_uring */
static atomic_bool is_watched; /* of both it is always said */

/*
 * Whether the process may call io_submit. `reserved` is the system's number. Reading the mappings takes long where there are many, so it is
 * done where the number has changed; and otherwise for a small part of the time, as long as none was found. Another process that ends a
 * context hides one that is made meanwhile.
 */
static bool may_submit(long reserved) {
    enum { TIMES = 200 };
    static atomic_long last;
    static atomic_bool found;
    static atomic_ullong again_ns;
    if (atomic_load(&submits) || atomic_load(&is_watched)) return atomic_load(&submits);
    if (reserved <= 0) return reserved < 0;
    uint64_t begun = now_ns();
    bool is_same = reserved == atomic_load(&last), was_found = atomic_load(&found);
    if (is_same && (was_found || begun < atomic_load(&again_ns))) return was_found;
    bool has = has_requests_mapped("self");
    atomic_store(&found, has);
    atomic_store(&last, reserved);
    atomic_store(&again_ns, begun + TIMES * (now_ns() - begun));
    return has;
}

/* ---- all descriptors ---- */

/* What was seen last; and of what that is, so that not all has to be looked at again if nothing can have changed. */
struct kept {
    enum devices devices;
    struct seen seen;
    long count;    /* of descriptors; 0 if the system doesn't show it */
    long reserved; /* requests of io_submit, where there is a file that they may read */
    unsigned closes;
};
static struct kept last;
static atomic_flag last_is_used = ATOMIC_FLAG_INIT; /* by another thread, or by one that a signal's handler has interrupted */
static atomic_uint closes;

static bool use_last(void) { return !atomic_flag_test_and_set(&last_is_used); }

static void end_use(void) { atomic_flag_clear(&last_is_used); }

void devices_closed(void) { atomic_fetch_add(&closes, 1); }

/* (what was seen last counts no more) */
static void note(atomic_bool *what) {
    if (!atomic_exchange(what, true)) devices_closed();
}

void devices_submit(void) { note(&submits); }
void devices_make_ring(void) { note(&has_ring); }

void devices_watch(void) {
    if (has_requests_mapped("self")) devices_submit();
    note(&is_watched);
}

/* How many descriptors there are (Linux 6.2), or 0. */
static long descriptors_count(void) {
    struct stat folder;
    return stat("/proc/self/fd", &folder) == 0 ? (long)folder.st_size : 0;
}

/* As getdents64 returns it. */
struct entry {
    uint64_t inode;
    int64_t next;
    unsigned short length; /* of this one, until the next one */
    unsigned char type;
    char name[];
};

/*
 * Looks at each descriptor in a folder. Returns false if they can't be seen. opendir would take memory of malloc: a thread of the monitor
 * that is in malloc may wait for a lock that is held here.
 */
static bool add_all(struct seen *seen, int folder) {
    _Alignas(struct entry) char entries[4096];
    long got;
    while ((got = syscall(SYS_getdents64, folder, entries, sizeof entries)) > 0) {
        const struct entry *entry;
        for (long at = 0; at < got; at += entry->length) {
            entry = (const struct entry *)(const void *)(entries + at);
            if (*entry->name == '.' || (seen->is_self && is_left_out && is_left_out(atoi(entry->name)))) continue;
            add(seen, folder, entry->name);
        }
    }
    return got == 0;
}

/* Looks at all descriptors of a process. Returns false if they can't be seen. */
static bool see(struct seen *seen, const char *process) {
    int fds = open_of(process, "fd", O_DIRECTORY);
    *seen = (struct seen){.is_self = strcmp(process, "self") == 0, .info = open_of(process, "fdinfo", O_DIRECTORY)};
    bool can_see = fds >= 0 && seen->info >= 0 && add_all(seen, fds);
    if (fds >= 0) syscall(SYS_close, fds);
    if (seen->info >= 0) syscall(SYS_close, seen->info);
    return can_see;
}

/* Whether there is a file of which requests of io_submit may pin pages. */
static bool may_read(const struct seen *seen) { return seen->has_direct || seen->has_uncached; }

/* `can_submit`: the process may have called io_submit. */
static enum devices worst_of(const struct seen *seen, bool can_submit) {
    if (seen->is_worst) return DEVICES_WRITE_ALL;
    bool has_rings = seen->rings_count > 0 || (seen->is_self && atomic_load(&has_ring));
    if (seen->has_uncached && (has_rings || can_submit)) return DEVICES_WRITE_ALL;
    if (seen->has_registered || (seen->has_direct && (has_rings || can_submit))) return DEVICES_PIN_PAGES;
    return may_read(seen) ? DEVICES_READ : DEVICES_NONE;
}

enum devices devices_open(void) {
    struct kept now = {.devices = DEVICES_PIN_PAGES, /* (what can't be seen may be there) */
                       .count = descriptors_count(),
                       .closes = atomic_load(&closes)};
    if (see(&now.seen, "self")) {
        if (may_read(&now.seen) && !atomic_load(&is_watched)) now.reserved = reserved_requests();
        now.devices = worst_of(&now.seen, may_read(&now.seen) && may_submit(now.reserved));
    }
    if (use_last()) {
        last = now;
        end_use();
    }
    return now.devices;
}

bool devices_of_process(unsigned long long process, enum devices *devices) {
    char name[24];
    struct seen seen;
    snprintf(name, sizeof name, "%llu", process);
    if (!see(&seen, name)) return false;
    *devices = worst_of(&seen, may_read(&seen) && has_requests_mapped(name));
    return true;
}

/* Whether no descriptor was opened or closed, and no context made, since this was seen. */
static bool are_same(const struct kept *kept) {
    if (kept->count <= 0 || kept->count != descriptors_count() || kept->closes != atomic_load(&closes)) return false;
    bool is_known = !may_read(&kept->seen) || atomic_load(&is_watched) || atomic_load(&submits);
    return is_known || kept->reserved == reserved_requests();
}

/* Whether nothing was registered with an io_uring: that may change at any time. */
static bool are_rings_same(const struct seen *seen) {
    char path[64];
    if (atomic_load(&is_watched)) return true;
    if (seen->rings_count > RINGS_MOST) return false;
    for (size_t i = 0; i < seen->rings_count && !seen->has_registered; i++) {
        snprintf(path, sizeof path, "/proc/self/fdinfo/%d", seen->rings[i]);
        if (has_registered(AT_FDCWD, path)) return false;
    }
    return true;
}

enum devices devices_still_open(void) {
    struct kept kept;
    if (!use_last()) return devices_open();
    kept = last;
    end_use();
    return are_same(&kept) && are_rings_same(&kept.seen) ? kept.devices : devices_open();
}
