#define _GNU_SOURCE
#include "domain_lender.h"
#include "bus.h"
#include "clock.h"
#include <errno.h>
#include <fcntl.h>
#include <stdlib.h>
#include <sys/mman.h>
#include <sys/random.h>
#include <sys/stat.h>
#include <unistd.h>

enum { NO_FILE = -1 };

struct lender {
    struct window_lender interface;
    struct pageshare_domain domain;
    struct journal *journal;
    uint32_t client;
    uint8_t *region;           /* the frames, for writing */
    unsigned char *is_free;    /* of each frame: it is free, and the system may hold memory for it */
    size_t free_from, free_to; /* all that are so are in here */
    struct lender_counts counts;
    struct bus bus;
};

const char *lender_status_words(enum lender_status status) {
    static const char *const words[] = {[LENDER_OK] = "done",
                                        [LENDER_NO_MEMORY] = "no memory for tables",
                                        [LENDER_NO_FILE] = "no file for frames",
                                        [LENDER_NO_RANDOM] = "no random numbers",
                                        [LENDER_REFUSED] = "the library refused"};
    return (size_t)status < sizeof words / sizeof words[0] ? words[status] : "unknown";
}

static size_t bytes_of(size_t frames) { return frames * WINDOW_PAGE_BYTES; }

static struct lender_result result_of(enum lender_status status, int cause) {
    return (struct lender_result){.status = status, .cause = cause};
}

/* (A domain remembers all questions, also those in passing.) */
static int ask(void *opaque, const uint32_t *pages, const uint64_t *fingerprints, const bool *passing, size_t count,
               unsigned char *seen) {
    struct lender *lender = opaque;
    (void)passing;
    for (size_t i = 0; i < count; i++)
        if (pageshare_domain_ask(&lender->domain, lender->client, pages[i], fingerprints[i], seen + i) != PAGESHARE_OK)
            return EINVAL;
    return 0;
}

static void note_free(struct lender *lender, size_t frame) {
    bool is_first = lender->free_from == lender->free_to;
    lender->is_free[frame] = 1;
    if (is_first || frame < lender->free_from) lender->free_from = frame;
    if (is_first || frame >= lender->free_to) lender->free_to = frame + 1;
}

static void release_one(struct lender *lender, uint64_t slot) {
    uint32_t freed = PAGESHARE_NO_FRAME;
    if (journal_release(lender->journal, &lender->domain, lender->client, slot, &freed) != PAGESHARE_OK) return;
    lender->counts.releases++;
    if (freed < lender->interface.frame_count) note_free(lender, freed);
}

static int release(void *opaque, const uint64_t *slots, size_t count) {
    for (size_t i = 0; i < count; i++) release_one(opaque, slots[i]);
    return 0;
}

/* A frame for which the system had no memory was written elsewhere, so it isn't lent. */
static struct window_loan lend_one(struct lender *lender, const unsigned char *page) {
    struct pageshare_loan loan = journal_lend(lender->journal, &lender->domain, lender->client, page);
    bool has_failed = lender->bus.used > 0;
    if (has_failed && loan.status == PAGESHARE_OK) {
        lender->counts.no_memory++;
        release_one(lender, loan.slot);
    }
    bus_map_again(&lender->bus, lender->interface.frames,
                  NULL); /* (if the system refuses, the next lend has failed, and tries again) */
    if (has_failed || loan.status != PAGESHARE_OK) return (struct window_loan){.frame = WINDOW_NO_FRAME};
    lender->is_free[loan.frame] = 0;
    lender->counts.lends++;
    return (struct window_loan){.frame = loan.frame, .slot = loan.slot};
}

/*
 * A device may still be reading the memory of a frame that became free, for a page that showed it. So that memory goes back to the system
 * before the frame is lent anew. Where the system refuses that, nothing is lent.
 */
static int lend(void *opaque, const uint32_t *pages, size_t count, struct window_loan *loans) {
    struct lender *lender = opaque;
    uint64_t begun = now_ns();
    bool may_lend = lender_trim(lender) == 0;
    (void)pages;
    for (size_t i = 0; i < count; i++)
        loans[i] = may_lend ? lend_one(lender, lender->interface.pages[i]) : (struct window_loan){.frame = WINDOW_NO_FRAME};
    lender->counts.lend_ns += now_ns() - begun;
    return 0;
}

static int open_frames(size_t bytes) {
    int fd = memfd_create("frames", MFD_CLOEXEC | MFD_ALLOW_SEALING);
    if (fd < 0) return NO_FILE;
    if (ftruncate(fd, (off_t)bytes) == 0 && fcntl(fd, F_ADD_SEALS, F_SEAL_SHRINK | F_SEAL_GROW | F_SEAL_SEAL) == 0) return fd;
    int cause = errno;
    close(fd);
    errno = cause;
    return NO_FILE;
}

static struct lender_result make_domain(struct lender *lender, const struct lender_config *config) {
    struct pageshare_domain_config domain = {.size = sizeof domain,
                                             .machines = 1,
                                             .slots = config->slots,
                                             .frames = config->frames,
                                             .clients = 1,
                                             .recent = config->recent,
                                             .hash = config->hash,
                                             .region = lender->region,
                                             .region_bytes = bytes_of(config->frames)};
    uint32_t salts[4];
    if (getrandom(salts, sizeof salts, 0) != (ssize_t)sizeof salts) return result_of(LENDER_NO_RANDOM, errno);
    domain.salt = salts[0];
    domain.seed = (uint64_t)salts[1] << 32 | salts[2];
    lender->interface.salt = salts[3];
    uint32_t status = pageshare_domain_make(&lender->domain, &domain);
    if (status == PAGESHARE_OK) status = pageshare_domain_enter(&lender->domain, &lender->client);
    if (status != PAGESHARE_OK) return result_of(LENDER_REFUSED, (int)status);
    if (lender->journal != NULL && !journal_head(lender->journal, config->frames, config->slots, domain.salt, lender->region))
        return result_of(LENDER_NO_MEMORY, ENOMEM);
    return result_of(LENDER_OK, 0);
}

static struct lender_result make_parts(struct lender *lender, const struct lender_config *config) {
    size_t bytes = bytes_of(config->frames);
    lender->is_free = calloc(config->frames, 1);
    lender->interface.pages = aligned_alloc(WINDOW_PAGE_BYTES, bytes_of(WINDOW_BATCH));
    if (lender->is_free == NULL || lender->interface.pages == NULL) return result_of(LENDER_NO_MEMORY, ENOMEM);
    lender->interface.frames = open_frames(bytes);
    if (lender->interface.frames < 0) return result_of(LENDER_NO_FILE, errno);
    void *at = mmap(NULL, bytes, PROT_READ | PROT_WRITE, MAP_SHARED | MAP_NORESERVE, lender->interface.frames, 0);
    if (at == MAP_FAILED) return result_of(LENDER_NO_FILE, errno);
    lender->region = at;
    int cause = bus_catch(&lender->bus, at, config->frames, NULL);
    return cause == 0 ? make_domain(lender, config) : result_of(LENDER_NO_FILE, cause);
}

struct lender_result lender_make(struct lender **made, const struct lender_config *config) {
    struct lender *lender = calloc(1, sizeof *lender);
    *made = NULL;
    if (lender == NULL) return result_of(LENDER_NO_MEMORY, ENOMEM);
    lender->domain = (struct pageshare_domain)PAGESHARE_DOMAIN_NONE;
    lender->bus = (struct bus)BUS_NONE;
    lender->journal = config->journal;
    lender->interface = (struct window_lender){
        .opaque = lender, .frames = NO_FILE, .frame_count = config->frames, .ask = ask, .lend = lend, .release = release};
    struct lender_result result = make_parts(lender, config);
    if (result.status == LENDER_OK) *made = lender;
    else lender_free(lender);
    return result;
}

void lender_free(struct lender *lender) {
    if (lender == NULL) return;
    bus_free(&lender->bus);
    size_t bytes = bytes_of(lender->interface.frame_count);
    pageshare_domain_free(&lender->domain);
    if (lender->region != NULL) {
        munmap(lender->region, bytes);
    }
    if (lender->interface.frames >= 0) close(lender->interface.frames);
    free(lender->interface.pages);
    free(lender->is_free);
    free(lender);
}

const struct window_lender *lender_interface(const struct lender *lender) { return &lender->interface; }

static bool punch(const struct lender *lender, size_t first, size_t count) {
    const int mode = FALLOC_FL_PUNCH_HOLE | FALLOC_FL_KEEP_SIZE;
    return fallocate(lender->interface.frames, mode, (off_t)bytes_of(first), (off_t)bytes_of(count)) == 0;
}

size_t lender_trim(struct lender *lender) {
    size_t left = 0;
    for (size_t first = lender->free_from, end = 0; first < lender->free_to; first = end + 1) {
        for (end = first; end < lender->free_to && lender->is_free[end] == 1;) end++;
        bool is_given = end == first || punch(lender, first, end - first);
        if (!is_given) left += end - first;
        for (size_t frame = first; frame < end && is_given; frame++) lender->is_free[frame] = 0;
    }
    if (left == 0) lender->free_from = lender->free_to = 0;
    return left;
}

void lender_count(struct lender *lender, struct pageshare_domain_totals *totals, struct lender_counts *counts) {
    struct stat stat = {0};
    pageshare_domain_report(&lender->domain, totals);
    *counts = lender->counts;
    if (fstat(lender->interface.frames, &stat) == 0) counts->frame_bytes = (size_t)stat.st_blocks * 512;
}
