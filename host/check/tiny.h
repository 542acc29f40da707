/* A guest under KVM, of some instructions in real mode, which fills pages of a process of the trial and compares them. */
#ifndef HOST_TINY_H
#define HOST_TINY_H

#include <stdbool.h>
#include <stddef.h>
#include <stdint.h>

enum { TINY_PAGES_MOST = 128 };

/* Gives so many pages to a new guest. Returns 0, or an errno where this computer has no KVM for this process. It ends with the process. */
int tiny_make(uint8_t *pages, size_t count);

/* The guest fills a page with a word. Returns false, with errno, where KVM doesn't run it. */
bool tiny_fill(size_t page, uint16_t word);

/* The same, and whether each word of the page is that one. */
bool tiny_compare(size_t page, uint16_t word, bool *is_so);

#endif
