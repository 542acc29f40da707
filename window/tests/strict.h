/*
 * A lender that keeps a list of its slots: of each it knows whether it was given, and whether it was released. A frame that no slot has any
 * more is overwritten at once, so a page that shows it still doesn't read as before.
 */
#ifndef PAGESHARE_WINDOW_STRICT_H
#define PAGESHARE_WINDOW_STRICT_H

#include "../lender.h"
#include <stdbool.h>
#include <stddef.h>
#include <stdint.h>

enum { STRICT_SLOTS = 1 << 14, STRICT_NOTED = 1 << 12, STRICT_SALT = 77 };

/* A slot that was given. No slot is given twice. */
struct strict_slot {
    uint32_t page, frame;
    bool is_released, is_found; /* found: a window has it */
};

struct strict_frame {
    unsigned users; /* slots that have it */
    uint64_t fingerprint;
};

struct strict_lender {
    struct window_lender interface;
    int file;
    unsigned char *bytes;
    struct strict_frame *frames;
    struct strict_slot *slots;
    size_t slot_count, slots_left, wrong; /* wrong: releases of slots that weren't given, or are released already */
    uint64_t noted[STRICT_NOTED];         /* fingerprints that were asked about, */
    uint32_t noted_pages[STRICT_NOTED];   /* and of which page */
};

/* Makes a lender with so many frames. Returns false if the system refuses something. */
bool strict_make(struct strict_lender *lender, uint32_t frames);
/* Windows go on showing its frames, which stay as they are. */
void strict_free(struct strict_lender *lender);
/* Whether windows have exactly the slots that were given and not released: each call of strict_find is of one of a window's. */
void strict_find_none(struct strict_lender *lender);
bool strict_find(struct strict_lender *lender, uint32_t page, uint64_t slot);
bool strict_are_all_found(const struct strict_lender *lender);

#endif
