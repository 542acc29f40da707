/* A guest of host/check/tiny.c fills pages, and finds each that isn't as it was filled. Prints `N pages, M wrong`. Status 3: there is no KVM. */
#define _GNU_SOURCE
#include "check/tiny.h"
#include <stdio.h>
#include <string.h>
#include <sys/mman.h>

enum { PAGE = 4096 };

int main(void) {
    uint8_t *pages = mmap(NULL, (size_t)TINY_PAGES_MOST * PAGE, PROT_READ | PROT_WRITE, MAP_PRIVATE | MAP_ANONYMOUS, -1, 0);
    int cause = pages != MAP_FAILED ? tiny_make(pages, TINY_PAGES_MOST) : 0, wrong = 0;
    if (pages == MAP_FAILED || tiny_make(pages, TINY_PAGES_MOST + 1) == 0) return 1;
    if (cause != 0) return printf("/dev/kvm: %s\n", strerror(cause)), 3;
    for (size_t page = 0; page < TINY_PAGES_MOST; page++) {
        const uint16_t word = (uint16_t)(page * 257);
        uint8_t *last = pages + page * PAGE + PAGE - 1;
        bool is_so = false, is_other = true;
        if (!tiny_fill(page, word) || !tiny_compare(page, word, &is_so)) return perror("KVM"), 1;
        bool is_filled = last[-1] == (uint8_t)page && *last == (uint8_t)page;
        *last ^= 1;
        if (!tiny_compare(page, word, &is_other)) return perror("KVM"), 1;
        wrong += is_so && is_filled && !is_other ? 0 : 1;
    }
    printf("%d pages, %d wrong\n", TINY_PAGES_MOST, wrong);
    return wrong == 0 ? 0 : 1;
}
