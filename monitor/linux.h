/* Linux as a guest of vm.h. It takes a KVM with nested page tables, or one that emulates a kernel fast enough. */
#ifndef MONITOR_LINUX_H
#define MONITOR_LINUX_H

#include "vm.h"

/* A byte of what the kernel prints goes to this port. */
enum { LINUX_PORT = 0x3f8 };

/*
 * Loads a bzImage and an initramfs, and sets the first processor of a machine with chips to the kernel's 64-bit beginning, by the
 * boot protocol of Documentation/arch/x86/boot.rst. `words` are its command line. Returns false, having printed why.
 */
bool linux_set(struct vm *vm, const char *kernel, const char *initrd, const char *words);

#endif
