#define _GNU_SOURCE
#include "vm.h"
#include "failure.h"
#include "guest.h"
#include <elf.h>
#include <errno.h>
#include <fcntl.h>
#include <linux/kvm.h>
#include <signal.h>
#include <stdio.h>
#include <stdlib.h>
#include <string.h>
#include <sys/ioctl.h>
#include <sys/mman.h>
#include <sys/stat.h>
#include <unistd.h>

enum { FRAME = 4096, KICK = SIGUSR1, NO_FD = -1 };

/* Flat segments' descriptors of user mode, in 64-bit mode. */
static const uint64_t USER_CODE = 0x00affb000000ffff, USER_DATA = 0x00cff3000000ffff;
enum { USER_CODE_SELECTOR = 0x2b, USER_DATA_SELECTOR = 0x33, USER_MODE = 3, ENTRY = 7 /* present, writable, user */ };
enum { FLAGS = 2, FLAGS_PORTS = 0x3000 /* user mode may use ports */ };

/* A serial port's line status: it can take a byte at any time. */
enum { PORT_STATUS = 0x3fd, STATUS_EMPTY = 0x60 };

static void ignore(int signal) { (void)signal; }

/* A kick interrupts KVM_RUN and a rest; it does nothing else. */
static bool catch_kicks(void) {
    struct sigaction action = {.sa_handler = ignore};
    return sigaction(KICK, &action, NULL) == 0 || trouble("sigaction");
}

static bool make_processor(struct vm *vm, unsigned number) {
    struct processor *processor = &vm->processors[number];
    processor->vm = vm;
    processor->number = number;
    processor->fd = ioctl(vm->fd, KVM_CREATE_VCPU, (unsigned long)number);
    if (processor->fd < 0) return trouble("KVM_CREATE_VCPU");
    processor->run = mmap(NULL, vm->run_bytes, PROT_READ | PROT_WRITE, MAP_SHARED, processor->fd, 0);
    if (processor->run != MAP_FAILED) return true;
    processor->run = NULL;
    return trouble("mmap of a processor");
}

/* The interrupt controllers and the timer of a PC, in the kernel, whose place for a task's state is where no memory is. */
static bool make_chips(const struct vm *vm) {
    const unsigned long task_state = 0xfffbd000;
    struct kvm_pit_config timer = {0};
    if (ioctl(vm->fd, KVM_SET_TSS_ADDR, task_state) < 0) return trouble("KVM_SET_TSS_ADDR");
    if (ioctl(vm->fd, KVM_CREATE_IRQCHIP, 0) < 0) return trouble("KVM_CREATE_IRQCHIP");
    return ioctl(vm->fd, KVM_CREATE_PIT2, &timer) == 0 || trouble("KVM_CREATE_PIT2");
}

bool vm_make(struct vm *vm, uint8_t *ram, size_t bytes, unsigned processors) {
    vm->ram = ram;
    vm->bytes = bytes;
    vm->count = processors;
    vm->fd = vm->kvm = NO_FD;
    atomic_store(&vm->stop, false);
    for (unsigned i = 0; i < processors; i++) vm->processors[i] = (struct processor){.fd = NO_FD};
    vm->kvm = open("/dev/kvm", O_RDWR | O_CLOEXEC);
    if (vm->kvm < 0) return trouble("/dev/kvm");
    int run_bytes = ioctl(vm->kvm, KVM_GET_VCPU_MMAP_SIZE, 0);
    if (run_bytes < 0) return trouble("KVM_GET_VCPU_MMAP_SIZE");
    vm->run_bytes = (size_t)run_bytes;
    vm->fd = ioctl(vm->kvm, KVM_CREATE_VM, 0UL);
    if (vm->fd < 0) return trouble("KVM_CREATE_VM");
    struct kvm_userspace_memory_region slot = {.memory_size = bytes, .userspace_addr = (uintptr_t)ram};
    if (ioctl(vm->fd, KVM_SET_USER_MEMORY_REGION, &slot) < 0) return trouble("KVM_SET_USER_MEMORY_REGION");
    if (vm->has_chips && !make_chips(vm)) return false;
    for (unsigned i = 0; i < processors; i++)
        if (!make_processor(vm, i)) return false;
    return catch_kicks();
}

void vm_free(struct vm *vm) {
    for (unsigned i = 0; i < vm->count; i++) {
        if (vm->processors[i].run != NULL) munmap(vm->processors[i].run, vm->run_bytes);
        if (vm->processors[i].fd >= 0) close(vm->processors[i].fd);
    }
    if (vm->fd >= 0) close(vm->fd);
    if (vm->kvm >= 0) close(vm->kvm);
    *vm = VM_NONE;
}

static bool set_registers(const struct processor *processor, const struct kvm_sregs *system, const struct kvm_regs *regs) {
    if (ioctl(processor->fd, KVM_SET_SREGS, system) < 0) return trouble("KVM_SET_SREGS");
    return ioctl(processor->fd, KVM_SET_REGS, regs) == 0 || trouble("KVM_SET_REGS");
}

bool vm_set_real(struct vm *vm, uint16_t at) {
    struct kvm_sregs system;
    struct kvm_regs regs = {.rip = at, .rsp = 0x1000, .rflags = FLAGS};
    if (ioctl(vm->processors[0].fd, KVM_GET_SREGS, &system) < 0) return trouble("KVM_GET_SREGS");
    system.cs.base = system.cs.selector = 0;
    return set_registers(&vm->processors[0], &system, &regs);
}

bool vm_set_long(struct processor *processor, const struct vm_begin *begin) {
    const uint8_t level = begin->code & USER_MODE;
    struct kvm_sregs system;
    if (ioctl(processor->fd, KVM_GET_SREGS, &system) < 0) return trouble("KVM_GET_SREGS");
    struct kvm_segment code = {
        .limit = 0xffffffff, .selector = begin->code, .type = 11, .present = 1, .dpl = level, .s = 1, .l = 1, .g = 1};
    struct kvm_segment data = {
        .limit = 0xffffffff, .selector = begin->data, .type = 3, .present = 1, .dpl = level, .db = 1, .s = 1, .g = 1};
    system.cs = code;
    system.ds = system.es = system.fs = system.gs = system.ss = data;
    system.gdt.base = begin->gdt;
    system.gdt.limit = begin->data | 7;
    system.cr3 = begin->tables;
    system.cr4 = 1u << 5;                           /* physical address extension */
    system.cr0 = 1u << 31 | 1u << 16 | 1u << 4 | 1; /* paging, write protection, the extension type, protection */
    system.efer = 1u << 10 | 1u << 8;               /* long mode, active and enabled */
    struct kvm_regs regs = {.rip = begin->entry, .rsp = begin->stack, .rdi = begin->first, .rsi = begin->second};
    regs.rflags = FLAGS | (level == USER_MODE ? FLAGS_PORTS : 0);
    return set_registers(processor, &system, &regs);
}

bool vm_put(struct vm *vm, uint64_t at, const void *bytes, size_t length) {
    if (at > vm->bytes || length > vm->bytes - at) return false;
    memcpy(vm->ram + at, bytes, length);
    return true;
}

/* All memory mapped to itself, four levels; no page was accessed or written yet. */
static void put_tables(struct vm *vm) {
    uint64_t *tables = (uint64_t *)(vm->ram + GUEST_TABLES);
    uint64_t frames = vm->bytes / FRAME;
    tables[0] = (GUEST_TABLES + FRAME) | ENTRY;
    tables[512] = (GUEST_TABLES + 2 * FRAME) | ENTRY;
    for (uint64_t i = 0; i < (frames + 511) / 512; i++) tables[1024 + i] = (GUEST_TABLES + (3 + i) * FRAME) | ENTRY;
    for (uint64_t i = 0; i < frames; i++) tables[1536 + i] = i * FRAME | ENTRY;
}

/* Copies a program's segments to their places. Returns its beginning, or 0. */
static uint64_t put_elf(struct vm *vm, const uint8_t *image, size_t bytes) {
    Elf64_Ehdr head;
    if (bytes < sizeof head) return 0;
    memcpy(&head, image, sizeof head);
    if (memcmp(head.e_ident, ELFMAG, SELFMAG) != 0 || head.e_machine != EM_X86_64) return 0;
    for (uint64_t i = 0; i < head.e_phnum; i++) {
        Elf64_Phdr part;
        if (head.e_phoff > bytes || (i + 1) * sizeof part > bytes - head.e_phoff) return 0;
        memcpy(&part, image + head.e_phoff + i * sizeof part, sizeof part);
        if (part.p_type != PT_LOAD || part.p_memsz == 0) continue;
        if (part.p_offset > bytes || part.p_filesz > bytes - part.p_offset) return 0;
        /* (no sum of numbers that the file has, since it may wrap) */
        if (part.p_paddr < GUEST_CODE || part.p_paddr > GUEST_DATA || part.p_memsz > GUEST_DATA - part.p_paddr) return 0;
        if (part.p_filesz > part.p_memsz || !vm_put(vm, part.p_paddr, image + part.p_offset, part.p_filesz)) return 0;
    }
    return head.e_entry;
}

const uint8_t *vm_map_file(const char *path, size_t *bytes) {
    struct stat stat;
    void *image = MAP_FAILED;
    int fd = open(path, O_RDONLY | O_CLOEXEC);
    if (fd >= 0 && fstat(fd, &stat) == 0) image = mmap(NULL, *bytes = (size_t)stat.st_size, PROT_READ, MAP_PRIVATE, fd, 0);
    if (image == MAP_FAILED) trouble(path);
    if (fd >= 0) close(fd);
    return image == MAP_FAILED ? NULL : image;
}

void vm_unmap_file(const uint8_t *image, size_t bytes) { munmap((void *)(uintptr_t)image, bytes); }

/* Returns a program's beginning, or 0, having printed why. */
static uint64_t load(struct vm *vm, const char *program) {
    size_t bytes;
    const uint8_t *image = vm_map_file(program, &bytes);
    if (image == NULL) return 0;
    uint64_t entry = put_elf(vm, image, bytes);
    if (entry == 0) fprintf(stderr, "%s: no program for a guest\n", program);
    vm_unmap_file(image, bytes);
    return entry;
}

bool vm_set_guest(struct vm *vm, const char *program, unsigned rest) {
    const uint64_t table[] = {0, 0, 0, 0, 0, USER_CODE, USER_DATA};
    const struct guest_config config = {vm->number, vm->count, GUEST_DATA, vm->bytes, rest};
    uint64_t entry = load(vm, program);
    if (entry == 0) return false;
    if (!vm_put(vm, GUEST_GDT, table, sizeof table) || !vm_put(vm, GUEST_CONFIG, &config, sizeof config)) return false;
    put_tables(vm);
    for (unsigned i = 0; i < vm->count; i++) {
        const uint64_t stack = GUEST_STACKS + (uint64_t)(i + 1) * GUEST_STACK_BYTES - 8;
        const struct vm_begin begin = {entry, stack, i, 0, GUEST_TABLES, GUEST_GDT, USER_CODE_SELECTOR, USER_DATA_SELECTOR};
        if (!vm_set_long(&vm->processors[i], &begin)) return false;
    }
    return true;
}

/* Serves an access to ports: bytes are reported, and what is read is ones, or that a byte may be written. Returns false if the
 * processor is to halt. */
static bool serve_port(struct processor *processor) {
    struct kvm_run *run = processor->run;
    uint8_t *data = (uint8_t *)run + run->io.data_offset;
    size_t bytes = (size_t)run->io.size * run->io.count;
    if (run->io.direction == KVM_EXIT_IO_IN) {
        memset(data, run->io.port == PORT_STATUS ? STATUS_EMPTY : 0xff, bytes);
        return true;
    }
    for (size_t i = 0; i < bytes; i++)
        if (!processor->vm->wrote(processor, run->io.port, data[i])) return false;
    return true;
}

/* Prints where a processor stands, and which bytes KVM couldn't emulate there if it says so. */
static enum vm_end failed(const struct processor *processor, const char *what) {
    const struct kvm_run *run = processor->run;
    struct kvm_regs regs = {0};
    ioctl(processor->fd, KVM_GET_REGS, &regs);
    fprintf(stderr, "guest %u, processor %u: %s, exit %u at %#llx", processor->vm->number, processor->number, what,
            run->exit_reason, regs.rip);
    bool has_bytes = run->exit_reason == KVM_EXIT_INTERNAL_ERROR && run->emulation_failure.ndata > 1 &&
                     (run->emulation_failure.flags & KVM_INTERNAL_ERROR_EMULATION_FLAG_INSTRUCTION_BYTES) != 0;
    for (unsigned i = 0; has_bytes && i < run->emulation_failure.insn_size; i++)
        fprintf(stderr, "%s%02x", i == 0 ? ", no emulation of " : " ", run->emulation_failure.insn_bytes[i]);
    fputc('\n', stderr);
    return VM_FAILED;
}

static enum vm_end run(struct processor *processor) {
    while (!atomic_load(&processor->vm->stop)) {
        if (ioctl(processor->fd, KVM_RUN, 0) < 0) {
            if (errno != EINTR && errno != EAGAIN) return failed(processor, strerror(errno));
            continue;
        }
        switch (processor->run->exit_reason) {
        case KVM_EXIT_IO:
            if (!serve_port(processor)) return VM_HALTED;
            break;
        case KVM_EXIT_MMIO: /* where no memory is, ones are read and nothing is written */
            memset(processor->run->mmio.data, 0xff, sizeof processor->run->mmio.data);
            break;
        case KVM_EXIT_HLT: return VM_HALTED;
        default: return failed(processor, "it can't go on");
        }
    }
    return VM_STOPPED;
}

static void *processor_thread(void *opaque) {
    struct processor *processor = opaque;
    atomic_store(&processor->end, run(processor));
    return NULL;
}

bool vm_start(struct vm *vm) {
    for (unsigned i = 0; i < vm->count; i++) {
        struct processor *processor = &vm->processors[i];
        atomic_store(&processor->end, VM_RUNS);
        errno = pthread_create(&processor->thread, NULL, processor_thread, processor);
        processor->has_thread = errno == 0;
        if (processor->has_thread) continue;
        trouble("a thread for a processor");
        vm_stop(vm);
        return false;
    }
    return true;
}

void vm_join(struct vm *vm) {
    for (unsigned i = 0; i < vm->count; i++) {
        if (vm->processors[i].has_thread) pthread_join(vm->processors[i].thread, NULL);
        vm->processors[i].has_thread = false;
    }
}

/* A processor sees `stop`, or immediate_exit before it enters the guest, or the kick in it or in a rest. */
void vm_stop(struct vm *vm) {
    atomic_store(&vm->stop, true);
    for (unsigned i = 0; i < vm->count; i++) {
        if (!vm->processors[i].has_thread) continue;
        __atomic_store_n(&vm->processors[i].run->immediate_exit, 1, __ATOMIC_SEQ_CST);
        pthread_kill(vm->processors[i].thread, KICK);
    }
    vm_join(vm);
    for (unsigned i = 0; i < vm->count; i++)
        if (vm->processors[i].run != NULL) vm->processors[i].run->immediate_exit = 0;
    atomic_store(&vm->stop, false);
}
