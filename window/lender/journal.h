/* A journal text of what a domain was asked, and beside it the lines that `pageshare replay` of it prints. */
#ifndef WINDOW_JOURNAL_H
#define WINDOW_JOURNAL_H

#include "pageshare.h"

struct journal;

/*
 * Begins the text at `path` and the lines of its replay at `path`.replay. It has space for `most` requests, and for as many as
 * make a text of 64 MiB. Returns NULL, with errno.
 */
struct journal *journal_open(const char *path, uint32_t most);

/*
 * The head, of a domain of one machine: one guest, whose pages are the slots. `region`: the frames, which the journal reads until it
 * is closed. Returns false, with errno, if there is no memory.
 */
bool journal_head(struct journal *journal, uint32_t frames, uint32_t slots, uint32_t salt, const uint8_t *region);

/*
 * Asks the domain as pageshare_domain_lend does; written are 64 stores and a proposal of the slot. Where the journal is NULL or has
 * ended nothing is written.
 */
struct pageshare_loan journal_lend(struct journal *journal, struct pageshare_domain *domain, uint32_t client,
                                   const uint8_t *page);

/* The same as pageshare_domain_release does; written are 64 loads of what is in the slot's frame, and the release. */
uint32_t journal_release(struct journal *journal, struct pageshare_domain *domain, uint32_t client, uint64_t slot,
                         uint32_t *freed);

/* It has ended when there was no space for another lend or release: then the last lines are written. Any thread may ask. */
bool journal_has_ended(const struct journal *journal);

/* Ends the files. Returns how many requests were written, or -1, with errno, if a write failed or the journal has no end. */
int64_t journal_close(struct journal *journal);

#endif
