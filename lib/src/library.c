/*
 * The part of libpageshare that runs on every x86-64 processor, whatever level the rest was built for. It has the version and level,
 * the names of statuses and verdicts, and the doors of the calls that make a machine. It is compiled with -march=x86-64 and
 * -DPAGESHARE_BUILT_LEVEL=2 or 3, the level of the rest.
 *
 * Each proved maker is renamed as it is put into the library, from pageshare_X to proved_pageshare_X (lib/src/doors.syms). The door of
 * that name looks at the processor first, so that no instruction that it lacks is ever run.
 */
#include "pageshare.h"
#include "processor.h"

#ifndef PAGESHARE_BUILT_LEVEL
#error "PAGESHARE_BUILT_LEVEL is the level that the library is built for: 2 or 3"
#endif

/* (for C, where a macro of this name chooses a form) */
#undef pageshare_make

const char *pageshare_version(void) { return PAGESHARE_VERSION; }

uint32_t pageshare_level(void) { return PAGESHARE_BUILT_LEVEL; }

uint32_t pageshare_check_processor(void) {
    return processor_level() >= PAGESHARE_BUILT_LEVEL ? PAGESHARE_OK : PAGESHARE_ERROR_PROCESSOR;
}

const char *pageshare_status_text(uint32_t status) {
    switch (status) {
    case PAGESHARE_OK: return "ok";
    case PAGESHARE_ERROR_FRAMES: return "too few frames, or too many";
    case PAGESHARE_ERROR_GUESTS: return "no guest, too many guests, or not as many salts as guests";
    case PAGESHARE_ERROR_PAGES: return "a guest with no page, or too many pages";
    case PAGESHARE_ERROR_MEMORY: return "out of memory";
    case PAGESHARE_ERROR_IN_USE: return "the handle is in use";
    case PAGESHARE_ERROR_NO_MACHINE: return "the handle is empty";
    case PAGESHARE_ERROR_NO_GUEST: return "no such guest";
    case PAGESHARE_ERROR_FULL: return "no more requests can be counted";
    case PAGESHARE_ERROR_LENGTH: return "no byte, or more than 64";
    case PAGESHARE_ERROR_CROSSES: return "the bytes cross the end of the page";
    case PAGESHARE_ERROR_NO_PAGE: return "no such page";
    case PAGESHARE_ERROR_UNMAPPED: return "the page has no frame";
    case PAGESHARE_ERROR_REGION: return "the region is too small, or not aligned to 4,096 bytes";
    case PAGESHARE_ERROR_HASH: return "no such hash";
    case PAGESHARE_ERROR_SIZE: return "the configuration has another size";
    case PAGESHARE_ERROR_MACHINES: return "no machine, or too many machines";
    case PAGESHARE_ERROR_SLOTS: return "no slot, or too many slots";
    case PAGESHARE_ERROR_CLIENTS: return "no client, or too many clients";
    case PAGESHARE_ERROR_RECENT: return "no question, or too many questions";
    case PAGESHARE_ERROR_NO_ROOM: return "no more clients can enter";
    case PAGESHARE_ERROR_NO_CLIENT: return "no such client";
    case PAGESHARE_ERROR_NO_SLOT: return "no slot is free";
    case PAGESHARE_ERROR_NO_FRAME: return "no frame is free";
    case PAGESHARE_ERROR_NOT_ITS_SLOT: return "the slot is not the client's";
    case PAGESHARE_ERROR_PROCESSOR: return "the library is built for a newer processor";
    default: return "unknown status";
    }
}

const char *pageshare_verdict_text(uint32_t verdict) {
    switch (verdict) {
    case PAGESHARE_VERDICT_NONE: return "none";
    case PAGESHARE_VERDICT_NO_PAGE: return "no-page";
    case PAGESHARE_VERDICT_UNMAPPED: return "unmapped";
    case PAGESHARE_VERDICT_ALREADY: return "already";
    case PAGESHARE_VERDICT_JOINED: return "joined";
    case PAGESHARE_VERDICT_PAIRED: return "paired";
    case PAGESHARE_VERDICT_HINTED: return "hinted";
    case PAGESHARE_VERDICT_KEPT: return "kept";
    case PAGESHARE_VERDICT_REPLACED: return "replaced";
    case PAGESHARE_VERDICT_INELIGIBLE: return "ineligible";
    case PAGESHARE_VERDICT_MAPPED: return "mapped";
    case PAGESHARE_VERDICT_STORED: return "stored";
    case PAGESHARE_VERDICT_COPIED: return "copied";
    case PAGESHARE_VERDICT_TAKEN: return "taken";
    case PAGESHARE_VERDICT_NO_FRAME: return "no-frame";
    case PAGESHARE_VERDICT_BYTES: return "bytes";
    case PAGESHARE_VERDICT_RELEASED: return "released";
    case PAGESHARE_VERDICT_TOTALS: return "totals";
    case PAGESHARE_VERDICT_CLOSED: return "closed";
    default: return "unknown verdict";
    }
}

/* The proved makers, and the call that frees, under the names that they have in this library. */
uint32_t proved_pageshare_make(struct pageshare *, uint32_t, const uint32_t *, size_t, const uint32_t *, size_t);
uint32_t proved_pageshare_make_hashed(struct pageshare *, uint32_t, const uint32_t *, size_t, const uint32_t *, size_t, uint32_t);
uint32_t proved_pageshare_make_in(struct pageshare *, uint32_t, const uint32_t *, size_t, const uint32_t *, size_t, uint32_t,
                                  struct pageshare_region);
uint32_t proved_pageshare_free(struct pageshare *);

uint32_t pageshare_make(struct pageshare *machine, uint32_t frames, const uint32_t *pages, size_t guests, const uint32_t *salts,
                        size_t salts_count) {
    if (pageshare_check_processor() != PAGESHARE_OK) return PAGESHARE_ERROR_PROCESSOR;
    return proved_pageshare_make(machine, frames, pages, guests, salts, salts_count);
}

uint32_t pageshare_make_hashed(struct pageshare *machine, uint32_t frames, const uint32_t *pages, size_t guests, const uint32_t *salts,
                               size_t salts_count, uint32_t hash) {
    if (pageshare_check_processor() != PAGESHARE_OK) return PAGESHARE_ERROR_PROCESSOR;
    return proved_pageshare_make_hashed(machine, frames, pages, guests, salts, salts_count, hash);
}

uint32_t pageshare_make_in(struct pageshare *machine, uint32_t frames, const uint32_t *pages, size_t guests, const uint32_t *salts,
                           size_t salts_count, uint32_t hash, struct pageshare_region region) {
    if (pageshare_check_processor() != PAGESHARE_OK) return PAGESHARE_ERROR_PROCESSOR;
    return proved_pageshare_make_in(machine, frames, pages, guests, salts, salts_count, hash, region);
}

/* Where the makers refuse there is never a machine, and a caller that frees its handle all the same must not end here. */
uint32_t pageshare_free(struct pageshare *machine) {
    if (pageshare_check_processor() != PAGESHARE_OK) return PAGESHARE_ERROR_NO_MACHINE;
    return proved_pageshare_free(machine);
}

uint32_t proved_pageshare_domain_make_shaped(struct pageshare_domain *, const struct pageshare_domain_shape *, uint32_t);
uint32_t proved_pageshare_domain_begin(struct pageshare_domain *, const struct pageshare_domain_shape *, uint32_t, size_t);
uint32_t proved_pageshare_domain_free(struct pageshare_domain *);

uint32_t pageshare_domain_make_shaped(struct pageshare_domain *domain, const struct pageshare_domain_shape *shape, uint32_t hash) {
    if (pageshare_check_processor() != PAGESHARE_OK) return PAGESHARE_ERROR_PROCESSOR;
    return proved_pageshare_domain_make_shaped(domain, shape, hash);
}

uint32_t pageshare_domain_begin(struct pageshare_domain *domain, const struct pageshare_domain_shape *shape, uint32_t hash, size_t pages) {
    if (pageshare_check_processor() != PAGESHARE_OK) return PAGESHARE_ERROR_PROCESSOR;
    return proved_pageshare_domain_begin(domain, shape, hash, pages);
}

uint32_t pageshare_domain_free(struct pageshare_domain *domain) {
    if (pageshare_check_processor() != PAGESHARE_OK) return PAGESHARE_ERROR_NO_MACHINE;
    return proved_pageshare_domain_free(domain);
}
