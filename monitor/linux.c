#define _GNU_SOURCE
#include "linux.h"
#include "failure.h"
#include <asm/bootparam.h>
#include <linux/kvm.h>
#include <stddef.h>
#include <stdlib.h>
#include <string.h>
#include <sys/ioctl.h>

/* Where things stand in the guest's memory below 1 MiB, whose upper end is no memory to a kernel. */
enum {
    AT_GDT = 0x500,
    AT_STACK = 0x6ff0,
    AT_BOOT_PARAMS = 0x7000,
    AT_TABLES = 0x9000,
    AT_WORDS = 0x20000,
    WORDS_MOST = 0x800,
    LOW_END = 0x9f000,
    HIGH = 0x100000
};

enum { SECTOR = 512, FRAME = 4096, HUGE_PAGE = 2 << 20, MAPPED_GIB = 4, FEATURES = 256 };
enum { CODE_SELECTOR = 0x10, DATA_SELECTOR = 0x18, ENTRY = 3 /* present, writable */, ENTRY_HUGE = 1 << 7 };
enum { PROTOCOL_64 = 0x20c, HEADER_MAGIC = 0x53726448, LOADER_OTHER = 0xff, ENTRY_64 = 0x200, MEMORY = 1 };

/* The guest sees what the host's processor and KVM have. */
static bool set_features(const struct vm *vm) {
    struct kvm_cpuid2 *features = calloc(1, sizeof *features + FEATURES * sizeof features->entries[0]);
    if (features == NULL) return trouble("memory for a processor's features");
    features->nent = FEATURES;
    bool done = ioctl(vm->kvm, KVM_GET_SUPPORTED_CPUID, features) == 0 || trouble("KVM_GET_SUPPORTED_CPUID");
    done = done && (ioctl(vm->processors[0].fd, KVM_SET_CPUID2, features) == 0 || trouble("KVM_SET_CPUID2"));
    free(features);
    return done;
}

/* Maps the first addresses to themselves, in pages of 2 MiB. */
static void put_tables(struct vm *vm) {
    static const uint64_t gdt[] = {0, 0, 0x00af9b000000ffff, 0x00cf93000000ffff};
    static uint64_t tables[2 + MAPPED_GIB][FRAME / sizeof(uint64_t)];
    tables[0][0] = (AT_TABLES + FRAME) | ENTRY;
    for (uint64_t i = 0; i < MAPPED_GIB; i++) tables[1][i] = (AT_TABLES + (2 + i) * FRAME) | ENTRY;
    for (uint64_t i = 0; i < MAPPED_GIB * 512; i++) tables[2 + i / 512][i % 512] = i * HUGE_PAGE | ENTRY | ENTRY_HUGE;
    vm_put(vm, AT_GDT, gdt, sizeof gdt);
    vm_put(vm, AT_TABLES, tables, sizeof tables);
}

static bool refuse(const char *kernel, const char *why) {
    fprintf(stderr, "%s: %s\n", kernel, why);
    return false;
}

/* Reads a kernel's header, and loads what is behind its first sectors. Returns false, having printed why. */
static bool put_kernel(struct vm *vm, const char *name, const uint8_t *image, size_t bytes, struct boot_params *params) {
    struct setup_header *header = &params->hdr;
    const size_t at = offsetof(struct boot_params, hdr);
    if (bytes < at + sizeof *header) return refuse(name, "too short for a kernel");
    memcpy(header, image + at, sizeof *header);
    size_t skipped = ((header->setup_sects == 0 ? 4u : header->setup_sects) + 1) * (size_t)SECTOR;
    if (header->header != HEADER_MAGIC || header->version < PROTOCOL_64) return refuse(name, "no bzImage of protocol 2.12");
    if ((header->xloadflags & XLF_KERNEL_64) == 0) return refuse(name, "the kernel has no 64-bit beginning");
    if (skipped >= bytes || header->pref_address < HIGH || header->pref_address > vm->bytes ||
        header->init_size > vm->bytes - header->pref_address || bytes - skipped > header->init_size)
        return refuse(name, "the guest's memory is too small for the kernel");
    vm_put(vm, header->pref_address, image + skipped, bytes - skipped);
    header->type_of_loader = LOADER_OTHER;
    return true;
}

/* Loads the initramfs at the end of memory. */
static bool put_initrd(struct vm *vm, const char *name, const uint8_t *image, size_t bytes, struct boot_params *params) {
    uint64_t kernel_end = params->hdr.pref_address + params->hdr.init_size;
    if (bytes > vm->bytes - kernel_end) return refuse(name, "the guest's memory is too small for the initramfs");
    uint64_t at = (vm->bytes - bytes) / FRAME * FRAME;
    if (at < kernel_end || at + bytes - 1 > params->hdr.initrd_addr_max) return refuse(name, "no place for the initramfs");
    vm_put(vm, at, image, bytes);
    params->hdr.ramdisk_image = (uint32_t)at;
    params->hdr.ramdisk_size = (uint32_t)bytes;
    return true;
}

/* Loads both files. */
static bool put_files(struct vm *vm, const char *kernel, const char *initrd, struct boot_params *params) {
    size_t kernel_bytes, initrd_bytes;
    const uint8_t *image = vm_map_file(kernel, &kernel_bytes);
    if (image == NULL) return false;
    bool done = put_kernel(vm, kernel, image, kernel_bytes, params);
    vm_unmap_file(image, kernel_bytes);
    image = done ? vm_map_file(initrd, &initrd_bytes) : NULL;
    if (image == NULL) return false;
    done = put_initrd(vm, initrd, image, initrd_bytes, params);
    vm_unmap_file(image, initrd_bytes);
    return done;
}

bool linux_set(struct vm *vm, const char *kernel, const char *initrd, const char *words) {
    static struct boot_params params;
    memset(&params, 0, sizeof params);
    if (strlen(words) >= WORDS_MOST) return refuse(words, "the command line is too long");
    if (!put_files(vm, kernel, initrd, &params) || !set_features(vm)) return false;
    params.hdr.cmd_line_ptr = AT_WORDS;
    params.e820_entries = 2;
    params.e820_table[0] = (struct boot_e820_entry){0, LOW_END, MEMORY};
    params.e820_table[1] = (struct boot_e820_entry){HIGH, vm->bytes - HIGH, MEMORY};
    vm_put(vm, AT_WORDS, words, strlen(words) + 1);
    vm_put(vm, AT_BOOT_PARAMS, &params, sizeof params);
    put_tables(vm);
    const struct vm_begin begin = {
        params.hdr.pref_address + ENTRY_64, AT_STACK, 0, AT_BOOT_PARAMS, AT_TABLES, AT_GDT, CODE_SELECTOR, DATA_SELECTOR};
    return vm_set_long(&vm->processors[0], &begin);
}
