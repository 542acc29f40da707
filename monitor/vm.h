/* A small virtual machine monitor over KVM: some processors, one memory slot, and ports that the guest writes bytes to. */
#ifndef MONITOR_VM_H
#define MONITOR_VM_H

#include <pthread.h>
#include <stdatomic.h>
#include <stdbool.h>
#include <stddef.h>
#include <stdint.h>

enum { VM_PROCESSORS = 4 };

/* How a processor stands. */
enum vm_end { VM_RUNS, VM_STOPPED, VM_HALTED, VM_FAILED };

struct kvm_run;
struct vm;

struct processor {
    struct vm *vm;
    unsigned number;
    int fd;
    struct kvm_run *run;
    pthread_t thread;
    bool has_thread;
    atomic_int end; /* an enum vm_end */
};

struct vm {
    unsigned number;
    uint8_t *ram; /* the guest's memory from its address 0 on */
    size_t bytes;
    /* Called for each byte that a processor writes to a port, on the processor's thread; false halts the processor. */
    bool (*wrote)(struct processor *processor, uint16_t port, uint8_t byte);
    void *opaque;   /* the caller's */
    bool has_chips; /* it has a PC's interrupt controllers and timer */

    int kvm, fd;
    size_t run_bytes;
    unsigned count;
    struct processor processors[VM_PROCESSORS];
    atomic_bool stop;
};

/* What a machine is before it is made, and after it was freed: vm_stop and vm_free do nothing with it. */
#define VM_NONE ((struct vm){.kvm = -1, .fd = -1})

/*
 * Makes a machine of 1 to VM_PROCESSORS processors whose memory is `ram`. Returns false, having said why; then vm_free frees what was
 * made. `number`, `wrote`, `opaque` and `has_chips` are the caller's to set.
 */
bool vm_make(struct vm *vm, uint8_t *ram, size_t bytes, unsigned processors);
void vm_free(struct vm *vm);

/* Sets a processor to real mode at an address below 64 KiB, all segments at 0. */
bool vm_set_real(struct vm *vm, uint16_t at);

/* Where a processor begins in 64-bit mode, with flat segments; in user mode, with the right to all ports, if these say so. */
struct vm_begin {
    uint64_t entry, stack;
    uint64_t first, second; /* in rdi and rsi */
    uint64_t tables, gdt;   /* addresses of the page tables and the descriptors */
    uint16_t code, data;    /* selectors; data is the last one */
};
bool vm_set_long(struct processor *processor, const struct vm_begin *begin);

/* Writes through the slot's addresses, as the guest would. Returns false if that is out of the guest's memory. */
bool vm_put(struct vm *vm, uint64_t at, const void *bytes, size_t length);

/* Maps a file for reading. Returns NULL, having said why. */
const uint8_t *vm_map_file(const char *path, size_t *bytes);
void vm_unmap_file(const uint8_t *image, size_t bytes);

/*
 * Loads the program of guest.c, and sets all processors to its beginning: user mode of 64-bit mode, all memory mapped to itself
 * in pages of 4 KiB. `rest` is the hundredths of a second that a processor rests between two rounds.
 */
bool vm_set_guest(struct vm *vm, const char *program, unsigned rest);

/* Starts a thread for each processor. */
bool vm_start(struct vm *vm);
/* Waits until all processors have halted by themselves. */
void vm_join(struct vm *vm);
/* Stops all processors, and waits for their threads. */
void vm_stop(struct vm *vm);

#endif
