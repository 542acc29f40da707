/*
 * The first process of a Linux guest: guest.c's checks, in MIB of memory that the kernel gives it. The kernel's command line has
 * guest=NUMBER, mib=MIB and rest=HUNDREDTHS, which it passes on to its first process.
 */
#define _GNU_SOURCE
#include "guest.h"
#include <stdio.h>
#include <stdlib.h>
#include <sys/io.h>
#include <sys/mman.h>

static uint64_t number(const char *name) {
    const char *text = getenv(name);
    return text == NULL ? 0 : strtoull(text, NULL, 10);
}

int main(void) {
    size_t bytes = number("mib") << 20;
    if (ioperm(PORT_TEXT, 1, 1) < 0 || ioperm(PORT_REST, 1, 1) < 0) return 1;
    void *at = mmap(NULL, bytes, PROT_READ | PROT_WRITE, MAP_PRIVATE | MAP_ANONYMOUS, -1, 0);
    if (at == MAP_FAILED) return 1;
    const struct guest_config config = {number("guest"), 1, (uintptr_t)at, (uintptr_t)at + bytes, number("rest")};
    guest_run(&config, 0);
}
