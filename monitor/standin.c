/*
 * A stand-in for a kernel, for computers that Linux doesn't boot on. It checks what the boot protocol owes a kernel at its 64-bit
 * beginning, and prints a line to the serial port. Then it reports a round of checks again and again as guest.c does.
 */
#include "guest.h"
#include <asm/bootparam.h>

enum { SERIAL = 0x3f8, STATUS = 0x3fd, CAN_TAKE = 0x20, REST = 10, HEADER_MAGIC = 0x53726448 };

static void out(uint16_t port, uint8_t byte) { __asm__ volatile("outb %0, %1" : : "a"(byte), "Nd"(port) : "memory"); }

/* Whether the serial port can't take a byte. */
static int is_busy(void) {
    uint8_t status;
    __asm__ volatile("inb %1, %0" : "=a"(status) : "Nd"((uint16_t)STATUS) : "memory");
    return (status & CAN_TAKE) == 0;
}

static void print(uint16_t port, const char *text) {
    for (; *text != 0; text++) {
        while (port == SERIAL && is_busy()) __asm__ volatile("pause");
        out(port, (uint8_t)*text);
    }
}

/* Whether a text begins with these letters. */
static int begins(uint64_t at, const char *letters) {
    const char *text = (const char *)at;
    while (*letters != 0 && *letters == *text) letters++, text++;
    return *letters == 0;
}

static int is_sound(const struct boot_params *params) {
    const struct setup_header *header = &params->hdr;
    const struct boot_e820_entry *high = &params->e820_table[params->e820_entries - 1];
    uint16_t code;
    __asm__ volatile("mov %%cs, %0" : "=r"(code));
    return header->header == HEADER_MAGIC && header->type_of_loader == 0xff && code == 0x10 && params->e820_entries == 2 &&
           high->type == 1 && header->ramdisk_image + header->ramdisk_size <= high->addr + high->size &&
           begins(header->ramdisk_image, "070701") && begins(header->cmd_line_ptr, "earlyprintk=serial,0x3f8");
}

/* The kernel's beginning, which stands in front of all else. */
void begin(uint64_t unused, const struct boot_params *params);
__attribute__((section(".begin"))) void begin(uint64_t unused, const struct boot_params *params) {
    (void)unused;
    print(SERIAL, "the stand-in for a kernel runs\n");
    if (!is_sound(params)) print(PORT_TEXT, "WRONG parameters\n");
    for (;;) {
        print(PORT_TEXT, "ok 1 1\n");
        out(PORT_REST, REST);
    }
}
