/*
 * Says what the library makes of descriptors and requests (host/devices.h), by opening each and asking. Words, each for a line of the output:
 *
 *     file:PATH     a file, open for reading        direct:PATH   the same by O_DIRECT
 *     ring          an io_uring                     buffers       one with a registered buffer
 *     submit        io_setup                        memory        a memfd
 *     files:PATH    one with a file by O_DIRECT that is registered, and has no descriptor any more
 *     xdp           a socket with which memory may be registered that a network card writes to
 *     request:NAME  a request of ioctl(2)
 *
 * Several with commas between are open at once. What comes after such a file was seen, and what is seen then:
 *
 *     then-submit:PATH   io_setup, where nothing is opened
 *     then-hidden:PATH   the same, and another process ends as large a context, so that the system's number of requests stays
 *     then-files:PATH    the file is registered with an io_uring that was open, and another one has its descriptor
 *
 * The answer is none, read, pin or write-all; or left out, where the system has none.
 */
#define _GNU_SOURCE
#include "breaker/ring.h"
#include "devices.h"
#include <fcntl.h>
#include <linux/aio_abi.h>
#include <linux/io_uring.h>
#include <linux/kvm.h>
#include <linux/nvme_ioctl.h>
#include <linux/vfio.h>
#include <linux/vhost.h>
#include <scsi/sg.h>
#include <stdint.h>
#include <stdio.h>
#include <stdlib.h>
#include <string.h>
#include <sys/ioctl.h>
#include <sys/mman.h>
#include <sys/socket.h>
#include <sys/syscall.h>
#include <sys/wait.h>
#include <unistd.h>

enum { OPEN_MOST = 8, PAGE = 4096, VMX = 1 << 5 };
static const char *const names[] = {"none", "read", "pin", "write-all"};

static const struct {
    const char *name;
    unsigned long number;
} requests[] = {
    {"vfio-map", VFIO_IOMMU_MAP_DMA},
    {"vdpa-status", VHOST_VDPA_SET_STATUS},
    {"sg-io", SG_IO},
    {"nvme-io", NVME_IOCTL_IO_CMD},
    {"nvme-io64", NVME_IOCTL_IO64_CMD},
    {"nvme-admin", NVME_IOCTL_ADMIN_CMD},
    {"vfio-unmap", VFIO_IOMMU_UNMAP_DMA},
    {"terminal", TCGETS},
};

static enum devices of_processor(bool has_vmx) {
    struct kvm_cpuid2 *leaves = calloc(1, sizeof *leaves + sizeof leaves->entries[0]);
    if (leaves == NULL) exit(2);
    leaves->nent = 1;
    leaves->entries[0].function = 1;
    leaves->entries[0].ecx = has_vmx ? VMX : 0;
    enum devices devices = devices_of_request(KVM_SET_CPUID2, leaves);
    free(leaves);
    return devices;
}

static enum devices of_request(const char *name) {
    if (strcmp(name, "vmx") == 0 || strcmp(name, "no-vmx") == 0) return of_processor(name[0] == 'v');
    for (size_t i = 0; i < sizeof requests / sizeof requests[0]; i++)
        if (strcmp(name, requests[i].name) == 0) return devices_of_request(requests[i].number, NULL);
    exit(2);
}

static aio_context_t context;

static int open_direct(const char *path) { return open(path, O_RDONLY | O_DIRECT | O_CLOEXEC); }

/* Registers a file with an io_uring, and closes its descriptor. */
static bool give_file(const struct ring *ring, int file) {
    bool is_given = syscall(SYS_io_uring_register, ring->fd, IORING_REGISTER_FILES, &file, 1) >= 0;
    close(file);
    return is_given;
}

/* Opens what a word names. Returns its descriptor, or -1 where the system has none. */
static int open_one(const char *word) {
    static struct ring rings[OPEN_MOST];
    static size_t count;
    static uint8_t page[PAGE] __attribute__((aligned(PAGE)));
    if (strncmp(word, "file:", 5) == 0) return open(word + 5, O_RDONLY | O_CLOEXEC);
    if (strncmp(word, "direct:", 7) == 0) return open_direct(word + 7);
    if (strcmp(word, "xdp") == 0) return socket(AF_XDP, SOCK_RAW | SOCK_CLOEXEC, 0);
    if (strcmp(word, "memory") == 0) return memfd_create("memory", MFD_CLOEXEC);
    if (strcmp(word, "submit") == 0) return syscall(SYS_io_setup, 4, &context) == 0 ? dup(2) : -1;
    struct ring *ring = &rings[count++ % OPEN_MOST];
    if (!ring_make(ring)) return -1;
    if (strncmp(word, "files:", 6) == 0) return give_file(ring, open_direct(word + 6)) ? ring->fd : -1;
    return strcmp(word, "buffers") != 0 || ring_pin(ring, page, PAGE) ? ring->fd : -1;
}

/* What all descriptors of a word with commas may do. */
static const char *of_descriptors(char *words) {
    int open_ones[OPEN_MOST];
    size_t count = 0;
    bool is_there = true;
    for (char *rest = NULL, *word = strtok_r(words, ",", &rest); word && count < OPEN_MOST; word = strtok_r(NULL, ",", &rest)) {
        open_ones[count++] = open_one(word);
        is_there = is_there && open_ones[count - 1] >= 0;
    }
    const char *found = is_there ? names[devices_open()] : "left out";
    for (size_t i = 0; i < count; i++)
        if (open_ones[i] >= 0) close(open_ones[i]);
    if (context != 0) syscall(SYS_io_destroy, context);
    context = 0;
    return found;
}

/* ---- what comes later ---- */

enum { REQUESTS = 1024, TRIES = 200, NAP_US = 10000 };

/* A process that has a context, and ends it when it is told so. */
static pid_t begin_other(int told[2], int tells[2]) {
    char byte = 0;
    if (pipe(told) != 0 || pipe(tells) != 0) exit(2);
    pid_t other = fork();
    if (other != 0) return read(tells[0], &byte, 1) == 1 ? other : -1;
    aio_context_t its = 0;
    bool good = syscall(SYS_io_setup, REQUESTS, &its) == 0 && write(tells[1], "x", 1) == 1 && read(told[0], &byte, 1) == 1;
    _exit(good && syscall(SYS_io_destroy, its) == 0 && write(tells[1], "x", 1) == 1 ? 0 : 1);
}

static enum devices after_hidden(void) {
    int told[2], tells[2];
    char byte;
    enum devices found = DEVICES_NONE;
    pid_t other = begin_other(told, tells);
    devices_open();
    bool good = other > 0 && write(told[1], "x", 1) == 1 && syscall(SYS_io_setup, REQUESTS, &context) == 0;
    good = good && read(tells[0], &byte, 1) == 1 && waitpid(other, NULL, 0) == other;
    for (int i = 0; i < TRIES && good && (found = devices_open()) < DEVICES_PIN_PAGES; i++) usleep(NAP_US);
    for (int i = 0; i < 2; i++) close(told[i]), close(tells[i]);
    return found;
}

static enum devices after_files(int file) {
    struct ring ring;
    if (!ring_make(&ring)) exit(2);
    devices_open();
    int other = give_file(&ring, file) ? open("/dev/null", O_RDONLY | O_CLOEXEC) : -1;
    enum devices found = devices_still_open();
    close(other);
    close(ring.fd);
    return found;
}

static const char *of_change(const char *word) {
    const char *path = strchr(word, ':') + 1;
    int file = open_direct(path);
    enum devices found = DEVICES_NONE;
    if (file < 0) return "left out";
    if (strncmp(word, "then-files:", 11) == 0) return names[after_files(file)];
    if (strncmp(word, "then-hidden:", 12) == 0) found = after_hidden();
    else if (devices_open() == DEVICES_READ && syscall(SYS_io_setup, 1, &context) == 0) found = devices_still_open();
    close(file);
    syscall(SYS_io_destroy, context);
    context = 0;
    return names[found];
}

int main(int count, char **words) {
    for (int i = 1; i < count; i++) {
        printf("%s ", words[i]);
        if (strncmp(words[i], "request:", 8) == 0) printf("%s\n", names[of_request(words[i] + 8)]);
        else if (strncmp(words[i], "then-", 5) == 0) printf("%s\n", of_change(words[i]));
        else printf("%s\n", of_descriptors(words[i]));
    }
    return 0;
}
