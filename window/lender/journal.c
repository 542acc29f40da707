#define _GNU_SOURCE
#include "journal.h"
#include <errno.h>
#include <inttypes.h>
#include <stdatomic.h>
#include <stdio.h>
#include <stdlib.h>

enum { STORES = PAGESHARE_PAGE_BYTES / PAGESHARE_MAX_ACCESS, STEP = PAGESHARE_MAX_ACCESS };

/* A text has at most 64 MiB, of which a lend or a take-back takes less than 16 KiB. */
static const long TEXT_MOST = (64L << 20) - (16L << 10);

/* A frame, as the replay has it: the slots that have it, and whether it is a shared page's. */
struct frame {
    uint32_t sharers;
    bool is_shared;
};

struct journal {
    FILE *text, *replay;
    uint32_t requests, most;
    uint32_t lent, frames, shared, hints; /* as the replay's report counts them at the end */
    struct frame *of_frame;
    uint32_t *frame_of; /* of each slot */
    const uint8_t *region;
    long bytes;        /* of the text */
    int cause;         /* the first failure of a write, or 0 */
    atomic_bool ended; /* another thread may ask */
};

struct journal *journal_open(const char *path, uint32_t most) {
    char *beside;
    struct journal *journal = calloc(1, sizeof *journal);
    if (journal == NULL || asprintf(&beside, "%s.replay", path) < 0) {
        free(journal);
        return NULL;
    }
    journal->most = most;
    journal->text = fopen(path, "w");
    journal->replay = journal->text != NULL ? fopen(beside, "w") : NULL;
    free(beside);
    if (journal->replay != NULL) return journal;
    int cause = errno;
    if (journal->text != NULL) fclose(journal->text);
    free(journal);
    errno = cause;
    return NULL;
}

/* Notes the first failure of a write, which journal_close returns. */
static void wrote(struct journal *journal, int bytes) {
    if (bytes < 0 && journal->cause == 0) journal->cause = errno != 0 ? errno : EIO;
}

static void asked(struct journal *journal, int bytes) {
    wrote(journal, bytes);
    journal->bytes += bytes;
    journal->requests++;
}

bool journal_head(struct journal *journal, uint32_t frames, uint32_t slots, uint32_t salt, const uint8_t *region) {
    journal->of_frame = calloc(frames, sizeof *journal->of_frame);
    journal->frame_of = calloc(slots, sizeof *journal->frame_of);
    journal->region = region;
    wrote(journal, fprintf(journal->text, "pageshare journal 2\nframes %" PRIu32 "\npages %" PRIu32 "\nsalts %" PRIu32 "\n",
                           frames, slots, salt));
    return journal->of_frame != NULL && journal->frame_of != NULL;
}

static void spell(char *hex, const uint8_t *bytes) {
    static const char digits[] = "0123456789abcdef";
    for (size_t i = 0; i < STEP; i++) {
        hex[2 * i] = digits[bytes[i] >> 4];
        hex[2 * i + 1] = digits[bytes[i] & 15];
    }
    hex[2 * STEP] = 0;
}

static void write_end(struct journal *journal) {
    wrote(journal, fprintf(journal->text, "end %" PRIu32 "\n", journal->requests));
    wrote(journal, fprintf(journal->replay,
                           "report entries %" PRIu32 " mapped %" PRIu32 " shared %" PRIu32 " frames %" PRIu32
                           " reclaimed %" PRIu32 " hints %" PRIu32 "\n",
                           journal->requests, journal->lent, journal->shared, journal->frames, journal->lent - journal->frames,
                           journal->hints));
    atomic_store(&journal->ended, true);
}

bool journal_has_ended(const struct journal *journal) { return atomic_load(&journal->ended); }

/* Whether the next lend or release is to be written. Ends a journal that has no space for it. */
static bool is_open(struct journal *journal) {
    if (journal == NULL || journal_has_ended(journal)) return false;
    if (journal->most - journal->requests > STORES && journal->bytes <= TEXT_MOST) return true;
    write_end(journal);
    return false;
}

/* Writes the verdict of a slot's proposal: all pages of a lent frame are shared from the second one on, until none has it. */
static void write_verdict(struct journal *journal, const struct pageshare_loan *loan) {
    struct frame *frame = &journal->of_frame[loan->frame];
    journal->lent++;
    frame->sharers = loan->sharers;
    if (loan->sharers == 1) {
        frame->is_shared = false;
        journal->frames++;
        journal->hints++;
        wrote(journal, fputs("0 hinted\n", journal->replay));
    } else if (!frame->is_shared) {
        frame->is_shared = true;
        journal->hints--;
        journal->shared += 2;
        wrote(journal, fputs("0 paired\n", journal->replay));
    } else {
        journal->shared++;
        wrote(journal, fprintf(journal->replay, "0 joined %" PRIu32 "\n", loan->sharers));
    }
}

struct pageshare_loan journal_lend(struct journal *journal, struct pageshare_domain *domain, uint32_t client,
                                   const uint8_t *page) {
    char hex[2 * STEP + 1];
    bool open = is_open(journal);
    struct pageshare_loan loan = pageshare_domain_lend(domain, client, page);
    if (!open || loan.status != PAGESHARE_OK) return loan;
    uint32_t slot = (uint32_t)loan.slot;
    for (unsigned i = 0; i < STORES; i++) {
        spell(hex, page + i * STEP);
        asked(journal, fprintf(journal->text, "0 store %" PRIu32 " %u %s\n", slot, i * STEP, hex));
        wrote(journal, fprintf(journal->replay, "0 %s\n", i == 0 ? "mapped" : "stored"));
    }
    asked(journal, fprintf(journal->text, "0 propose %" PRIu32 "\n", slot));
    journal->frame_of[slot] = loan.frame;
    write_verdict(journal, &loan);
    return loan;
}

/* Loads a slot, 64 bytes at a time, from its frame. */
static void write_loads(struct journal *journal, uint32_t slot) {
    char hex[2 * STEP + 1];
    const uint8_t *page = journal->region + (size_t)journal->frame_of[slot] * PAGESHARE_PAGE_BYTES;
    for (uint32_t at = 0; at < PAGESHARE_PAGE_BYTES; at += STEP) {
        spell(hex, page + at);
        asked(journal, fprintf(journal->text, "0 load %" PRIu32 " %" PRIu32 " %d\n", slot, at, STEP));
        wrote(journal, fprintf(journal->replay, "0 bytes %s\n", hex));
    }
}

static void write_release(struct journal *journal, uint32_t slot, bool is_free) {
    struct frame *frame = &journal->of_frame[journal->frame_of[slot]];
    asked(journal, fprintf(journal->text, "0 release %" PRIu32 "\n", slot));
    wrote(journal, fprintf(journal->replay, "0 released %s\n", is_free ? "freed" : "held"));
    journal->lent--;
    frame->sharers--;
    if (frame->is_shared) journal->shared--;
    else journal->hints--;
    if (is_free) journal->frames--;
}

uint32_t journal_release(struct journal *journal, struct pageshare_domain *domain, uint32_t client, uint64_t slot,
                         uint32_t *freed) {
    bool open = is_open(journal);
    if (open) write_loads(journal, (uint32_t)slot);
    uint32_t status = pageshare_domain_release(domain, client, slot, freed);
    if (open && status == PAGESHARE_OK) write_release(journal, (uint32_t)slot, *freed != PAGESHARE_NO_FRAME);
    return status;
}

int64_t journal_close(struct journal *journal) {
    int64_t requests = journal->requests;
    int cause = journal->cause;
    if (fclose(journal->text) != 0 && cause == 0) cause = errno;
    if (fclose(journal->replay) != 0 && cause == 0) cause = errno;
    if (!journal->ended && cause == 0) cause = EPIPE;
    free(journal->of_frame);
    free(journal->frame_of);
    free(journal);
    errno = cause;
    return cause == 0 ? requests : -1;
}
