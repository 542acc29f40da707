/*
 * Lends frames of a domain in this process to windows (window/lender.h), and gives the memory of free frames back to the system.
 * A lender is used by one thread at a time, which is the one that looks at windows.
 */
#ifndef WINDOW_DOMAIN_LENDER_H
#define WINDOW_DOMAIN_LENDER_H

#include "../lender.h"
#include "journal.h"
#include "pageshare.h"

enum lender_status {
    LENDER_OK,
    LENDER_NO_MEMORY, /* for tables */
    LENDER_NO_FILE,   /* a file for frames, with seals, of that size */
    LENDER_NO_RANDOM, /* for salts */
    LENDER_REFUSED,   /* the library's status, in `cause` */
};
struct lender_result {
    enum lender_status status;
    int cause; /* an errno, or a status of the library, or 0 */
};
const char *lender_status_words(enum lender_status status);

/* Most slots and most frames of a lender: those of one machine. */
enum { LENDER_PAGES_MOST = 1 << 20 };

struct lender_config {
    uint32_t slots;          /* most pages that are lent at a time, 1 to LENDER_PAGES_MOST */
    uint32_t frames;         /* 2 to LENDER_PAGES_MOST, one of which is spare: as many as distinct pages are expected */
    uint32_t recent;         /* pages whose fingerprints are remembered */
    uint32_t hash;           /* an enum pageshare_hash_kind */
    struct journal *journal; /* what is asked of the domain is written to it until it is full; NULL for none */
};

struct lender;

/* Salts are drawn at random. Unless the status is LENDER_OK *made is NULL. */
struct lender_result lender_make(struct lender **made, const struct lender_config *config);
/* Windows show the frames as long as they like. NULL is no lender. */
void lender_free(struct lender *lender);

/* What windows call. It is valid as long as the lender. */
const struct window_lender *lender_interface(const struct lender *lender);

/* Gives the memory of free frames back to the system; to be called once a second or so. Returns how many frames are left, of those
 * that are free, for which the system refused it. */
size_t lender_trim(struct lender *lender);

/* What a lender counts, and the bytes that the system holds for frames. */
struct lender_counts {
    uint64_t lends, lend_ns, releases;
    uint64_t no_memory; /* pages that weren't lent since the system had no memory for a frame */
    size_t frame_bytes;
};
void lender_count(struct lender *lender, struct pageshare_domain_totals *totals, struct lender_counts *counts);

#endif
