/*
 * A stand-in for /dev/kvm, to be preloaded behind libpageshare-window.so where a machine has none: each descriptor is a virtual machine,
 * and each slot of memory is taken that KVM would take.
 */
#define _GNU_SOURCE
#include <dlfcn.h>
#include <errno.h>
#include <fcntl.h>
#include <linux/kvm.h>
#include <stdarg.h>
#include <stdint.h>
#include <sys/ioctl.h>
#include <sys/syscall.h>
#include <unistd.h>

enum { SLOTS = 64 };
static struct kvm_userspace_memory_region slots[SLOTS];

static long set_slot(const struct kvm_userspace_memory_region *asked) {
    struct kvm_userspace_memory_region *slot = asked->slot < SLOTS ? &slots[asked->slot] : NULL;
    int is_there = slot && slot->memory_size > 0;
    int is_kept = is_there && (slot->userspace_addr != asked->userspace_addr || slot->memory_size != asked->memory_size);
    if (!slot || (asked->memory_size == 0 && !is_there) || (asked->memory_size > 0 && is_kept)) {
        errno = EINVAL;
        return -1;
    }
    *slot = *asked;
    return 0;
}

long syscall(long number, ...) {
    static long (*next)(long, ...);
    long word[6];
    va_list rest;
    va_start(rest, number);
    for (int i = 0; i < 6; i++) word[i] = va_arg(rest, long);
    va_end(rest);
    if (!next) next = (long (*)(long, ...))(uintptr_t)dlsym(RTLD_NEXT, "syscall");
    if (number == SYS_ioctl && word[1] == (long)KVM_CREATE_VM) return fcntl((int)word[0], F_DUPFD, 100);
    if (number == SYS_ioctl && word[1] == (long)KVM_SET_USER_MEMORY_REGION)
        return set_slot((const struct kvm_userspace_memory_region *)(uintptr_t)word[2]);
    return next(number, word[0], word[1], word[2], word[3], word[4], word[5]);
}
