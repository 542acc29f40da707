#define _GNU_SOURCE
#include "tiny.h"
#include "trouble.h"
#include <errno.h>
#include <fcntl.h>
#include <linux/kvm.h>
#include <string.h>
#include <sys/ioctl.h>
#include <sys/mman.h>
#include <unistd.h>

/* `rep stosw` and `repe scasw`, each with `hlt` behind it, and where they and the pages lie in the guest. */
static const uint8_t code[] = {0xf3, 0xab, 0xf4, 0xf3, 0xaf, 0xf4};
enum { FILL = 0, COMPARE = 3, PAGES_AT = 0x10000, WORDS = PAGE / 2, IS_EQUAL = 0x40 /* of the flags */ };

static struct {
    int processor;
    struct kvm_run *run;
    struct kvm_sregs system;
} my = {.processor = -1};

/* (where the kernel keeps a state of its own while the guest is in real mode: there is no memory) */
static bool set_up(int machine, uint8_t *pages, size_t count) {
    const unsigned long task_state = 0xfffbd000;
    uint8_t *first = mmap(NULL, PAGE, PROT_READ | PROT_WRITE, MAP_PRIVATE | MAP_ANONYMOUS, -1, 0);
    if (first == MAP_FAILED) return false;
    memcpy(first, code, sizeof code);
    const struct kvm_userspace_memory_region own = {.memory_size = PAGE, .userspace_addr = (uintptr_t)first};
    const struct kvm_userspace_memory_region shared = {
        .slot = 1, .guest_phys_addr = PAGES_AT, .memory_size = count * PAGE, .userspace_addr = (uintptr_t)pages};
    return ioctl(machine, KVM_SET_TSS_ADDR, task_state) >= 0 && ioctl(machine, KVM_SET_USER_MEMORY_REGION, &own) == 0 &&
           ioctl(machine, KVM_SET_USER_MEMORY_REGION, &shared) == 0;
}

static bool add_processor(int kvm, int machine) {
    int bytes = ioctl(kvm, KVM_GET_VCPU_MMAP_SIZE, 0);
    my.processor = ioctl(machine, KVM_CREATE_VCPU, 0UL);
    if (bytes < 0 || my.processor < 0) return false;
    void *run = mmap(NULL, (size_t)bytes, PROT_READ | PROT_WRITE, MAP_SHARED, my.processor, 0);
    if (run == MAP_FAILED) return false;
    my.run = run;
    if (ioctl(my.processor, KVM_GET_SREGS, &my.system) < 0) return false;
    my.system.cs.base = my.system.cs.selector = 0;
    return true;
}

int tiny_make(uint8_t *pages, size_t count) {
    if (count > TINY_PAGES_MOST) return EINVAL;
    int kvm = open("/dev/kvm", O_RDWR | O_CLOEXEC);
    if (kvm < 0) return errno;
    int machine = ioctl(kvm, KVM_CREATE_VM, 0UL);
    bool is_made = machine >= 0 && set_up(machine, pages, count) && add_processor(kvm, machine);
    int cause = errno;
    close(kvm);
    return is_made ? 0 : cause;
}

/* Runs instructions over a page until their hlt. */
static bool run_at(uint16_t at, size_t page, uint16_t word, struct kvm_regs *regs) {
    *regs = (struct kvm_regs){.rip = at, .rax = word, .rcx = WORDS, .rsp = PAGE, .rflags = 2};
    my.system.es.base = PAGES_AT + page * PAGE;
    my.system.es.selector = (uint16_t)(my.system.es.base >> 4);
    if (ioctl(my.processor, KVM_SET_SREGS, &my.system) < 0 || ioctl(my.processor, KVM_SET_REGS, regs) < 0) return false;
    int status = 0;
    do status = ioctl(my.processor, KVM_RUN, 0);
    while (status < 0 && (errno == EINTR || errno == EAGAIN));
    if (status < 0 || ioctl(my.processor, KVM_GET_REGS, regs) < 0) return false;
    return my.run->exit_reason == KVM_EXIT_HLT || (errno = EPROTO, false);
}

bool tiny_fill(size_t page, uint16_t word) {
    struct kvm_regs regs;
    return run_at(FILL, page, word, &regs);
}

bool tiny_compare(size_t page, uint16_t word, bool *is_so) {
    struct kvm_regs regs = {.rflags = 0};
    bool has_run = run_at(COMPARE, page, word, &regs);
    *is_so = has_run && (regs.rflags & IS_EQUAL) != 0 && (regs.rcx & 0xffff) == 0;
    return has_run;
}
