/*
 * Content-based page sharing for virtual machine monitors, in C11 or C++11: the functions of libpageshare, a static library
 * (libpageshare.a) and a shared one (libpageshare.so).
 *
 * A machine has guests with pages of 4,096 bytes, and frames that hold these pages. Pages that are proposed and hold the same
 * bytes come to share one frame; a store to a shared page gives the writer a copy. docs/MODEL.md has the rules, and
 * docs/EMBEDDING.md what is proved of each call.
 *
 *     struct pageshare machine = PAGESHARE_NONE;
 *     const uint32_t pages[] = {512, 512}, salts[] = {0, 0};
 *     const struct pageshare_config config = {.frames = 1024, .pages = pages, .salts = salts, .guests = 2};
 *     uint32_t status = pageshare_make(&machine, &config);
 *     if (status != PAGESHARE_OK) puts(pageshare_status_text(status));
 *     struct pageshare_answer answer = pageshare_propose(&machine, 0, 17);
 *     ..
 *     pageshare_free(&machine);
 *
 * No call has a condition on its numbers: if one is wrong, the call returns a status above 0, and nothing has changed. Statuses are
 * written without PAGESHARE_ERROR below: _FULL is PAGESHARE_ERROR_FULL. The status is the first cause that holds, in the order of
 * the numbers. Only making a machine has an order of its own:
 * PAGESHARE_ERROR_PROCESSOR, _IN_USE, _HASH, _FRAMES, _GUESTS, _PAGES, _REGION, _MEMORY.
 *
 * Callers must ensure, and nothing checks:
 *
 * - A handle begins as PAGESHARE_NONE or as zeros, and these calls alone read and write its members. It may be moved while no
 *   call runs, but is not copied: one of two copies would free the other's machine. It is freed by pageshare_free.
 * - One call at a time works on a handle. It may go to another thread, or be used by several in turn, if a lock, a thread's
 *   start or end, or the like orders their calls. Different handles have nothing to do with each other.
 * - Each pointer is not null, even if its count is 0, and is aligned for its type. It points to as many elements as are named
 *   beside it, for as long as the call runs. What a call writes to (the handle, room, totals, mpn, at, answers) overlaps no
 *   other argument of it. Nobody else reads or writes it meanwhile. What a call only reads, nobody writes meanwhile.
 * - A count of elements makes less than 2^63 bytes.
 * - malloc, realloc and free are one allocator's, may be called on any thread, and align a block to 16 bytes. No call is made
 *   from a signal handler, nor in the child of a fork of a process with threads.
 *
 * - A region (region of struct pageshare_config) is the library's until the machine is freed: nobody else writes to it. But the
 *   memory of free frames may be given back to the system while no call runs. No page that is stored or lent lies in it.
 *
 * Making a machine takes all memory that it needs; no other call asks for any.
 */
#ifndef PAGESHARE_H
#define PAGESHARE_H

#include <stdbool.h>
#include <stddef.h>
#include <stdint.h>

/* The version of this header: MAJOR.MINOR.PATCH. pageshare_version returns that of the library. */
#define PAGESHARE_VERSION "0.1.0"
#define PAGESHARE_VERSION_MAJOR 0
#define PAGESHARE_VERSION_MINOR 1
#define PAGESHARE_VERSION_PATCH 0

#ifdef __cplusplus
extern "C" {
#endif

/* A handle: it can contain one machine. Its members are the library's. */
struct pageshare {
    void *private_at;
    bool private_live;
};

/* What a handle begins as: it holds no machine. */
#define PAGESHARE_NONE {NULL, false}

/* The bytes of a page, and the most that one store or load names. */
#define PAGESHARE_PAGE_BYTES 4096
#define PAGESHARE_MAX_ACCESS 64

enum pageshare_status {
    PAGESHARE_OK = 0,
    PAGESHARE_ERROR_FRAMES = 1,     /* 0 frames, or more than 1,048,576; of a domain's machines, fewer than 2 or more than that */
    PAGESHARE_ERROR_GUESTS = 2,     /* no guest, more than 64, or not as many salts as guests */
    PAGESHARE_ERROR_PAGES = 3,      /* a guest with no page, or more than 1,048,576 pages in total */
    PAGESHARE_ERROR_MEMORY = 4,     /* memory was refused */
    PAGESHARE_ERROR_IN_USE = 5,     /* the handle holds a machine already, or a domain */
    PAGESHARE_ERROR_NO_MACHINE = 6, /* the handle holds no machine, or no domain */
    PAGESHARE_ERROR_NO_GUEST = 7,   /* there is no such guest */
    PAGESHARE_ERROR_FULL = 8,       /* 4,294,967,295 requests are counted: see pageshare_restart_count */
    PAGESHARE_ERROR_LENGTH = 9,     /* no byte, or more than 64; of pageshare_domain_leave, a `most` of 0 */
    PAGESHARE_ERROR_CROSSES = 10,   /* the last byte would stand past the page's end */
    PAGESHARE_ERROR_NO_PAGE = 11,   /* there is no such page (of a request it is a verdict) */
    PAGESHARE_ERROR_UNMAPPED = 12,  /* the page has no frame (of a request it is a verdict) */
    PAGESHARE_ERROR_REGION = 13,    /* the region is too small for the frames, or isn't aligned to 4,096 (checked after PAGES) */
    PAGESHARE_ERROR_HASH = 14,      /* there is no such hash */
    /* of domains alone: */
    PAGESHARE_ERROR_SIZE = 15,      /* config->size is not that of the struct */
    PAGESHARE_ERROR_MACHINES = 16,  /* no machine, or more than 64 */
    PAGESHARE_ERROR_SLOTS = 17,     /* no slots, or more than 1,048,576 for each machine */
    PAGESHARE_ERROR_CLIENTS = 18,   /* no client, or more than 65,536 */
    PAGESHARE_ERROR_RECENT = 19,    /* no question, or more than 16,777,216 */
    PAGESHARE_ERROR_NO_ROOM = 20,   /* as many clients are in as there may be */
    PAGESHARE_ERROR_NO_CLIENT = 21, /* no such client is in, or it has begun to leave */
    PAGESHARE_ERROR_NO_SLOT = 22,   /* the page's machine has no free slot */
    PAGESHARE_ERROR_NO_FRAME = 23,  /* the page joins no other, and its machine has no free frame but the spare one */
    PAGESHARE_ERROR_NOT_ITS_SLOT = 24, /* the slot is not the client's */
    PAGESHARE_ERROR_PROCESSOR = 25  /* the library is built for a newer processor. Then call pageshare_free at most */
};

enum pageshare_verdict {
    PAGESHARE_VERDICT_NONE = 0,        /* the request was not served: see the status */
    PAGESHARE_VERDICT_NO_PAGE = 1,     /* the guest has no such page */
    PAGESHARE_VERDICT_UNMAPPED = 2,    /* propose, release: the page has no frame */
    PAGESHARE_VERDICT_ALREADY = 3,     /* propose: the page is shared already */
    PAGESHARE_VERDICT_JOINED = 4,      /* propose: it now shares the frame of equal shared pages. count: how many share it */
    PAGESHARE_VERDICT_PAIRED = 5,      /* propose: it and the hint page, which was equal, now share one frame */
    PAGESHARE_VERDICT_HINTED = 6,      /* propose: no equal page is known, and it is the hint under its key */
    PAGESHARE_VERDICT_KEPT = 7,        /* propose: it was that hint already */
    PAGESHARE_VERDICT_REPLACED = 8,    /* propose: the hint under its key was stale, and it takes its place */
    PAGESHARE_VERDICT_INELIGIBLE = 9,  /* propose: another content has the same hash or key, and it stays as it is */
    PAGESHARE_VERDICT_MAPPED = 10,     /* store: the page got a frame */
    PAGESHARE_VERDICT_STORED = 11,     /* store: into the page's own frame */
    PAGESHARE_VERDICT_COPIED = 12,     /* store: the page got a copy of the shared frame; the others keep theirs */
    PAGESHARE_VERDICT_TAKEN = 13,      /* store: the page was the shared frame's last, which is its own again */
    PAGESHARE_VERDICT_NO_FRAME = 14,   /* store: no frame is free, and nothing changed */
    PAGESHARE_VERDICT_BYTES = 15,      /* load: the bytes stand in room. count: how many */
    PAGESHARE_VERDICT_RELEASED = 16,   /* release: the page has no frame now. count: 1 if that frame is free now */
    PAGESHARE_VERDICT_TOTALS = 17,     /* count: the numbers stand in totals */
    PAGESHARE_VERDICT_CLOSED = 18      /* no request of C has it */
};

/* No frame. */
#define PAGESHARE_NO_FRAME UINT32_MAX

/* The answer to a request. */
struct pageshare_answer {
    uint32_t status;  /* an enum pageshare_status: PAGESHARE_OK if the request was served */
    uint32_t verdict; /* an enum pageshare_verdict */
    uint32_t count;   /* as the verdict says, and else 0 */
    uint32_t frame;   /* the named page's frame afterwards, or PAGESHARE_NO_FRAME if it has none */
    uint32_t freed;   /* a frame that is free since, which was the named page's, or PAGESHARE_NO_FRAME */
};

/* Returns the library's version, such as "0.1.0". */
const char *pageshare_version(void);

/* Returns the level of x86-64 that the library is built for: 2 (x86-64-v2), or 3 (x86-64-v3, with AVX2). */
uint32_t pageshare_level(void);

/* Returns PAGESHARE_OK if this processor has that level, else PAGESHARE_ERROR_PROCESSOR. Making a machine checks it, too. */
uint32_t pageshare_check_processor(void);

/* Returns the meaning of a status in a few words of English, such as "no such page"; "unknown status" for other numbers. */
const char *pageshare_status_text(uint32_t status);

/* Returns a verdict's word, which is that of the program's texts, such as "joined"; "unknown verdict" for other numbers. */
const char *pageshare_verdict_text(uint32_t verdict);

/* What a machine counts. */
struct pageshare_totals {
    uint32_t entries;   /* the requests served, whatever their verdicts, since the count began */
    uint32_t mapped;    /* the pages that have a frame, their own or a shared one */
    uint32_t shared;    /* the pages that have a shared frame */
    uint32_t frames;    /* the frames in use */
    uint32_t reclaimed; /* mapped less frames: what sharing saves */
    uint32_t hints;     /* the pages that are hints */
};

/* The hash by which a machine finds equal pages. They are compared in full before they share a frame, whatever the hash. */
enum pageshare_hash_kind {
    PAGESHARE_SHA256 = 0,     /* the first eight bytes of SHA-256 */
    PAGESHARE_FOLD = 1,       /* some 20 times as fast; with the salt one can make a page of any hash, so draw salts at random */
    PAGESHARE_SHA256_WIDE = 2 /* PAGESHARE_SHA256 of eight pages at once: for libraries built for x86-64-v3 */
};

/* What a machine is made of. Set it to zeros first, as an initializer does: a zero is the default of each member from hash on. */
struct pageshare_config {
    uint32_t frames;       /* 1 to 1,048,576 */
    const uint32_t *pages; /* the pages of each guest: 1 or more, at most 1,048,576 in total */
    const uint32_t *salts; /* the salt of each guest: pages of guests with different salts are never shared */
    size_t guests;         /* 1 to 64 */
    uint32_t hash;         /* an enum pageshare_hash_kind */
    void *region;          /* memory for the frames, aligned to 4,096 bytes, or NULL: the library takes it itself */
    size_t region_bytes;   /* at least 4,096 for each frame; the library uses no more than that. 0 if there is no region */
};

/* Memory of the caller's for frames: `pages` pages of 4,096 bytes, one after the other, from `at` on. */
struct pageshare_region {
    void *at;
    size_t pages;
};

/*
 * Deprecated: the calls by which 0.1.0 made machines, which the next release drops from this header. Use pageshare_make with a
 * struct pageshare_config (below). guests and salts_count are the lengths of the lists, both the same. frames, pages, salts and
 * hash are as in the config, and frames are in memory of the library's unless there is a region. It has exactly `frames`
 * pages and is aligned to 4,096 bytes. With PAGESHARE_WARN_DEPRECATED defined, compilers name each use of them.
 */
#if defined(PAGESHARE_WARN_DEPRECATED)
#define PAGESHARE_DEPRECATED __attribute__((deprecated("use pageshare_make with a struct pageshare_config")))
#else
#define PAGESHARE_DEPRECATED
#endif
PAGESHARE_DEPRECATED uint32_t pageshare_make(struct pageshare *machine, uint32_t frames, const uint32_t *pages, size_t guests,
                                             const uint32_t *salts, size_t salts_count);
PAGESHARE_DEPRECATED uint32_t pageshare_make_hashed(struct pageshare *machine, uint32_t frames, const uint32_t *pages, size_t guests,
                                                    const uint32_t *salts, size_t salts_count, uint32_t hash);
PAGESHARE_DEPRECATED uint32_t pageshare_make_in(struct pageshare *machine, uint32_t frames, const uint32_t *pages, size_t guests,
                                                const uint32_t *salts, size_t salts_count, uint32_t hash,
                                                struct pageshare_region region);

/*
 * pageshare_make(machine, config) makes the machine that a struct pageshare_config describes. Returns PAGESHARE_OK, or one of
 * PAGESHARE_ERROR_PROCESSOR, _IN_USE, _HASH, _FRAMES, _GUESTS, _PAGES, _REGION and _MEMORY: the first cause in this order.
 *
 * From then on, and until it is freed, the library alone writes to the region's frames. Frame n is the 4,096 bytes at 4096 n of the
 * region. The caller reads only those that pages have (it may map them for guests to read). The library never reads a free frame
 * before it has written it whole. So the caller may give a free frame's memory back to the system, as by MADV_REMOVE, while no call
 * runs. After pageshare_free, and after a status above 0, the library doesn't touch the region again.
 */
static inline uint32_t pageshare_make_of(struct pageshare *machine, const struct pageshare_config *config) {
    struct pageshare_region region;
#if defined(__GNUC__)
#pragma GCC diagnostic push
#pragma GCC diagnostic ignored "-Wdeprecated-declarations"
#endif
    if (config->region == NULL) {
        return pageshare_make_hashed(machine, config->frames, config->pages, config->guests, config->salts, config->guests,
                                     config->hash);
    }
    region.at = config->region;
    region.pages = config->region_bytes / PAGESHARE_PAGE_BYTES;
    if (region.pages > config->frames) region.pages = config->frames;
    if ((uintptr_t)config->region % PAGESHARE_PAGE_BYTES != 0) region.pages = 0;
    return pageshare_make_in(machine, config->frames, config->pages, config->guests, config->salts, config->guests, config->hash,
                             region);
#if defined(__GNUC__)
#pragma GCC diagnostic pop
#endif
}

#ifdef __cplusplus
extern "C++" {
static inline uint32_t pageshare_make(struct pageshare *machine, const struct pageshare_config *config) {
    return pageshare_make_of(machine, config);
}
}
#else
/* (For calls with the six arguments of 0.1.0: five behind the machine. A config that is written in the call counts as one argument for
 * each of its members, unless it is in parentheses.) */
#define PAGESHARE_NINTH(a, b, c, d, e, f, g, h, ninth, ...) ninth
#define pageshare_make(machine, ...)                                                                                                  \
    PAGESHARE_NINTH(__VA_ARGS__, pageshare_make_of, pageshare_make_of, pageshare_make_of, pageshare_make, pageshare_make_of,           \
                    pageshare_make_of, pageshare_make_of, pageshare_make_of, 0)                                                       \
    (machine, __VA_ARGS__)
#endif

/* Deprecated: the same by an older name. */
PAGESHARE_DEPRECATED static inline uint32_t pageshare_make_with(struct pageshare *machine, const struct pageshare_config *config) {
    return pageshare_make_of(machine, config);
}

/* Frees the machine. Returns PAGESHARE_OK or PAGESHARE_ERROR_NO_MACHINE; the handle holds none afterwards. */
uint32_t pageshare_free(struct pageshare *machine);

/*
 * The requests of a guest. Guests count from 0, a guest's pages (by their physical page numbers, PPN) from 0, and the bytes of
 * a page from 0. Each returns a status: PAGESHARE_OK, and then a verdict, or PAGESHARE_ERROR_NO_MACHINE, _NO_GUEST, _FULL, _LENGTH
 * or _CROSSES.
 *
 * A page changes its frame at five verdicts alone. At MAPPED and COPIED it gets a frame that was free, at JOINED and PAIRED that
 * of the pages with which it is now shared, and at RELEASED none. Every other page keeps its frame. A monitor that maps pages to
 * frames maps the named page anew after each of these, and maps shared frames for reading alone. At PAIRED that goes for the page
 * that was the hint, too: it keeps its frame and was private until then. Every store is a request, to private pages as well.
 */

/* Proposes a page for sharing. */
struct pageshare_answer pageshare_propose(struct pageshare *machine, uint32_t guest, uint32_t ppn);

/* Stores 1 to 64 bytes in a page, from place `at` on. */
struct pageshare_answer pageshare_store(struct pageshare *machine, uint32_t guest, uint32_t ppn, uint32_t at,
                                        const uint8_t *bytes, size_t length);

/* Loads 1 to 64 bytes of a page, from place `at` on. `room` stays as it is unless the verdict is BYTES. */
struct pageshare_answer pageshare_load(struct pageshare *machine, uint32_t guest, uint32_t ppn, uint32_t at,
                                       uint8_t *room, size_t length);

/* Releases a page: it has no frame then, and reads as zeros. */
struct pageshare_answer pageshare_release(struct pageshare *machine, uint32_t guest, uint32_t ppn);

/*
 * Whole pages, for monitors that lend a guest's page to the machine while the guest only reads it, and take it back when the
 * guest writes to it. docs/EMBEDDING.md has the protocol.
 */

/*
 * Stores a whole page, which counts as the 64 stores of 64 bytes that write it: with fewer left to count it is
 * PAGESHARE_ERROR_FULL. The verdict is that of the first of them.
 */
struct pageshare_answer pageshare_store_page(struct pageshare *machine, uint32_t guest, uint32_t ppn,
                                             const uint8_t page[PAGESHARE_PAGE_BYTES]);

/*
 * Lends a page: stores it whole and then proposes it, which counts as 65 requests, or as 64 if the stores were refused
 * (NO_PAGE, NO_FRAME). The verdict is the proposal's, or that refusal. A page that joins others is compared where it lies.
 */
struct pageshare_answer pageshare_lend(struct pageshare *machine, uint32_t guest, uint32_t ppn,
                                       const uint8_t page[PAGESHARE_PAGE_BYTES]);

/*
 * Takes a page back: copies it to `room` and releases it, which counts as the release alone. `room` stays as it is unless the
 * verdict is RELEASED.
 */
struct pageshare_answer pageshare_take_back(struct pageshare *machine, uint32_t guest, uint32_t ppn,
                                            uint8_t room[PAGESHARE_PAGE_BYTES]);

/* A page that is to be lent, and its bytes. */
struct pageshare_lending {
    uint32_t guest;
    uint32_t ppn;
    const uint8_t *page; /* 4,096 bytes */
};

/* How many pages pageshare_lend_four lends. */
#define PAGESHARE_GROUP 4

/*
 * Lends four pages, one after the other in this order, as four calls of pageshare_lend do: answers[i] is the answer for pages[i].
 * With SHA-256 the four hashes are computed together, which takes less than half the time; the pages stay where they are, and one
 * page may be named twice. Returns PAGESHARE_OK, or PAGESHARE_ERROR_NO_MACHINE, and then writes no answer.
 */
uint32_t pageshare_lend_four(struct pageshare *machine, const struct pageshare_lending pages[PAGESHARE_GROUP],
                             struct pageshare_answer answers[PAGESHARE_GROUP]);

/* How many pages pageshare_lend_eight lends. */
#define PAGESHARE_WIDE_GROUP 8

/*
 * Lends eight pages as pageshare_lend_four lends four. PAGESHARE_SHA256_WIDE hashes all eight together, and PAGESHARE_SHA256 four
 * and four.
 */
uint32_t pageshare_lend_eight(struct pageshare *machine, const struct pageshare_lending pages[PAGESHARE_WIDE_GROUP],
                              struct pageshare_answer answers[PAGESHARE_WIDE_GROUP]);

/*
 * Lends `count` pages, one after the other in this order: in groups of eight, then four, and then one by one. answers[i] is the
 * answer for pages[i]. Returns PAGESHARE_OK, or PAGESHARE_ERROR_NO_MACHINE, and then writes no answer.
 */
static inline uint32_t pageshare_lend_many(struct pageshare *machine, const struct pageshare_lending *pages, size_t count,
                                           struct pageshare_answer *answers) {
    size_t i = 0;
    if (!machine->private_live) return PAGESHARE_ERROR_NO_MACHINE;
    for (; i + PAGESHARE_WIDE_GROUP <= count; i += PAGESHARE_WIDE_GROUP) pageshare_lend_eight(machine, pages + i, answers + i);
    for (; i + PAGESHARE_GROUP <= count; i += PAGESHARE_GROUP) pageshare_lend_four(machine, pages + i, answers + i);
    for (; i < count; i++) answers[i] = pageshare_lend(machine, pages[i].guest, pages[i].ppn, pages[i].page);
    return PAGESHARE_OK;
}

/* Writes the machine's totals, this request among the entries. totals stays as it is unless the verdict is TOTALS. */
struct pageshare_answer pageshare_count(struct pageshare *machine, uint32_t guest, struct pageshare_totals *totals);

/* The calls below are no requests: they aren't counted, and change no page. */

/*
 * Resets the request count to 0, for a machine that serves more than 4,294,967,295. Returns PAGESHARE_OK or _NO_MACHINE.
 */
uint32_t pageshare_restart_count(struct pageshare *machine);

/* A page, by its guest and its number. */
struct pageshare_page_name {
    uint32_t guest;
    uint32_t ppn;
};

/*
 * Computes the hashes of `count` pages ahead of their proposals: of SHA-256 four at a time, which takes less than half the time.
 * It skips pages that don't exist, aren't private, or whose hash is known. It is no request and changes no answer, and a store to
 * a page makes its hash unknown again. Returns PAGESHARE_OK or PAGESHARE_ERROR_NO_MACHINE.
 */
uint32_t pageshare_hash(struct pageshare *machine, const struct pageshare_page_name *pages, size_t count);

/*
 * Proposes `count` pages, one after the other in this order, with their hashes computed ahead as by pageshare_hash; answers[i] is
 * the answer for pages[i]. Returns PAGESHARE_OK, or PAGESHARE_ERROR_NO_MACHINE, and then writes no answer.
 */
static inline uint32_t pageshare_propose_many(struct pageshare *machine, const struct pageshare_page_name *pages, size_t count,
                                              struct pageshare_answer *answers) {
    if (pageshare_hash(machine, pages, count) != PAGESHARE_OK) return PAGESHARE_ERROR_NO_MACHINE;
    for (size_t i = 0; i < count; i++) answers[i] = pageshare_propose(machine, pages[i].guest, pages[i].ppn);
    return PAGESHARE_OK;
}

/* Writes the machine's totals. Returns PAGESHARE_OK or _NO_MACHINE. */
uint32_t pageshare_report(struct pageshare *machine, struct pageshare_totals *totals);

/*
 * Copies a page to `room`; an unmapped page reads as zeros. Returns PAGESHARE_OK, _NO_MACHINE or _NO_PAGE.
 */
uint32_t pageshare_read(struct pageshare *machine, uint32_t guest, uint32_t ppn,
                        uint8_t room[PAGESHARE_PAGE_BYTES]);

/*
 * Writes the number of a page's frame (its machine page number, MPN), 0 to frames - 1. Returns PAGESHARE_OK, _NO_MACHINE, _NO_PAGE
 * or _UNMAPPED.
 */
uint32_t pageshare_frame(struct pageshare *machine, uint32_t guest, uint32_t ppn, uint32_t *mpn);

/*
 * Writes the address of a page's 4,096 bytes, which may be read, never written, and only until the next call with this handle.
 * Returns PAGESHARE_OK, _NO_MACHINE, _NO_PAGE or _UNMAPPED. *at is written only on PAGESHARE_OK. No proof says what is at the
 * address; pageshare_read copies the bytes.
 */
uint32_t pageshare_page(struct pageshare *machine, uint32_t guest, uint32_t ppn, const uint8_t **at);

/*
 * Domains: pages of many clients in one to 64 machines, for a host that shares memory between the processes of monitors.
 *
 * A client lends pages, as many as there are slots. A page that was lent has a slot, which is the client's until the client releases
 * it or leaves, and a frame that holds the page's bytes. Pages with the same bytes come to share one frame, whose clients they are.
 * What the host maps for its clients is the region of the frames. Frame n is the 4,096 bytes at 4096 n of it. Machine m's frames
 * are those from m times the frames of one machine on.
 *
 *     struct pageshare_domain domain = PAGESHARE_DOMAIN_NONE;
 *     struct pageshare_domain_config config = {.size = sizeof config, .machines = 1, .slots = 100000, .frames = 50000, ..};
 *     if (pageshare_domain_make(&domain, &config) != PAGESHARE_OK) ..
 *     uint32_t client;
 *     pageshare_domain_enter(&domain, &client);
 *     struct pageshare_loan loan = pageshare_domain_lend(&domain, client, page);
 *     ..
 *     pageshare_domain_free(&domain);
 *
 * A call with a status above 0 has changed nothing, neither the domain nor the caller's memory. Callers must ensure for a domain's
 * handle and its region what they must for a machine's. They must also ensure:
 *
 * - While a slot is a client's, the client may read its frame. A host releases a slot only when nothing shows its frame for it any
 *   more. That is after the client has mapped something else in its place, or when its process has ended.
 * - A frame that a call returns as freed is free, and the host may give its memory back to the system while no call runs. Nobody
 *   may still read it by then, since a later lend fills it with another page.
 * - A client's calls name that client alone: the library can't see the caller.
 *
 * A handle is used by one thread at a time. A host with a thread for each machine makes as many domains of one machine each, with
 * one salt, and chooses one for each page by its fingerprint.
 */

/* A handle: it can contain one domain. Its members are the library's. */
struct pageshare_domain {
    void *private_at;
    bool private_live;
};

/* What a handle begins as: it holds no domain. */
#define PAGESHARE_DOMAIN_NONE {NULL, false}

/* What a domain is made of. All memory is taken when it is made; no other call asks for any. */
struct pageshare_domain_config {
    size_t size;         /* sizeof this struct */
    uint32_t machines;   /* 1 to 64. Equal pages meet, since a page's hash says which machine it goes to */
    uint32_t slots;      /* the pages that may be lent at a time, of each machine: 1 to 1,048,576 */
    uint32_t frames;     /* of each machine, 2 to 1,048,576. One of them is spare: it is in use only within a call */
    uint32_t clients;    /* how many may be in at a time: 1 to 65,536 */
    uint32_t recent;     /* how many questions pageshare_domain_seen remembers: 1 to 16,777,216 */
    uint32_t hash;       /* an enum pageshare_hash_kind */
    uint32_t salt;       /* drawn at random, and kept secret from clients too: with it one may keep pages from being shared */
    uint64_t seed;       /* the same of pageshare_domain_seen: with it one can make questions take long */
    void *region;        /* memory for the frames, aligned to 4,096 bytes, or NULL: the library takes it itself */
    size_t region_bytes; /* at least 4,096 for each frame of each machine; the library uses no more than that */
};

/* The numbers of a config, as the calls below take them, of which pageshare_domain_make is made. It is easier to call. */
struct pageshare_domain_shape {
    uint32_t machines;
    uint32_t slots;
    uint32_t frames;
    uint32_t clients;
    uint32_t recent;
    uint32_t salt;
    uint64_t seed;
};

/* Makes a domain with frames of its own. Returns what pageshare_domain_make does, but for _REGION and _SIZE. */
uint32_t pageshare_domain_make_shaped(struct pageshare_domain *domain, const struct pageshare_domain_shape *shape, uint32_t hash);

/*
 * Begins a domain whose frames come from the caller: `pages` pages, exactly as many as all machines together have frames.
 * Each other call but pageshare_domain_add and pageshare_domain_free returns _NO_MACHINE until it is made. Returns what
 * pageshare_domain_make does, but for _SIZE.
 */
uint32_t pageshare_domain_begin(struct pageshare_domain *domain, const struct pageshare_domain_shape *shape, uint32_t hash,
                                size_t pages);

/*
 * Gives a domain that was begun the frames of its next machine: a region of exactly as many pages. With those of the last
 * machine the domain is made. Returns PAGESHARE_OK, _NO_MACHINE (no domain was begun, or it is made), _REGION (it has room for
 * another number of pages) or _MEMORY. At _MEMORY the handle holds nothing, and the library doesn't touch the regions again.
 */
uint32_t pageshare_domain_add(struct pageshare_domain *domain, struct pageshare_region region);

/* Frees a domain, even if clients are in, or one that was begun. Returns PAGESHARE_OK or _NO_MACHINE. The handle holds none
 * afterwards, and the library doesn't touch its region again. */
uint32_t pageshare_domain_free(struct pageshare_domain *domain);

/*
 * Makes a domain with no client in. Returns PAGESHARE_OK, or the first cause that holds in this order: _SIZE, _IN_USE, _HASH,
 * _MACHINES, _SLOTS, _FRAMES, _CLIENTS, _RECENT, _REGION, _MEMORY.
 */
static inline uint32_t pageshare_domain_make(struct pageshare_domain *domain, const struct pageshare_domain_config *config) {
    struct pageshare_domain_shape shape;
    struct pageshare_region region;
    uint64_t frames = (uint64_t)config->machines * config->frames;
    size_t pages = config->region_bytes / PAGESHARE_PAGE_BYTES;
    uint32_t status;
    if (config->size != sizeof *config) return PAGESHARE_ERROR_SIZE;
    shape.machines = config->machines;
    shape.slots = config->slots;
    shape.frames = config->frames;
    shape.clients = config->clients;
    shape.recent = config->recent;
    shape.salt = config->salt;
    shape.seed = config->seed;
    if (config->region == NULL) return pageshare_domain_make_shaped(domain, &shape, config->hash);
    if (pages > frames) pages = (size_t)frames;
    if ((uintptr_t)config->region % PAGESHARE_PAGE_BYTES != 0) pages = 0;
    status = pageshare_domain_begin(domain, &shape, config->hash, pages);
    if (status != PAGESHARE_OK) return status;
    for (uint32_t machine = 0; machine < config->machines; machine++) {
        region.at = (uint8_t *)config->region + (size_t)machine * config->frames * PAGESHARE_PAGE_BYTES;
        region.pages = config->frames;
        status = pageshare_domain_add(domain, region);
        if (status != PAGESHARE_OK) {
            pageshare_domain_free(domain);
            return status;
        }
    }
    return PAGESHARE_OK;
}

/*
 * Lets a client in, and writes its number: the least that no client has, below the config's clients. Returns PAGESHARE_OK,
 * _NO_MACHINE or _NO_ROOM.
 */
uint32_t pageshare_domain_enter(struct pageshare_domain *domain, uint32_t *client);

/* What became of a page that was to be lent. */
struct pageshare_loan {
    uint32_t status;  /* an enum pageshare_status: PAGESHARE_OK if the page was lent */
    uint32_t frame;   /* the frame that holds the page's bytes, or PAGESHARE_NO_FRAME if it wasn't lent */
    uint64_t slot;    /* the page's slot, or 0 */
    uint32_t sharers; /* how many slots have this frame, with this one, or 0 */
};

/*
 * Lends a page of a client: it gets a free slot, and the frame of the pages that are equal to it or one of its own. No other slot
 * changes its frame, and no frame that a slot has changes its bytes. The status
 * is PAGESHARE_OK, _NO_MACHINE, _NO_CLIENT, _NO_SLOT or _NO_FRAME.
 */
struct pageshare_loan pageshare_domain_lend(struct pageshare_domain *domain, uint32_t client,
                                            const uint8_t page[PAGESHARE_PAGE_BYTES]);

/*
 * Releases a client's slot. *freed is then the slot's frame if it is free now, or PAGESHARE_NO_FRAME if other slots have it, too. A
 * client that has begun to leave may release slots. Returns PAGESHARE_OK, _NO_MACHINE or _NOT_ITS_SLOT. *freed is written only on
 * PAGESHARE_OK.
 */
uint32_t pageshare_domain_release(struct pageshare_domain *domain, uint32_t client, uint64_t slot, uint32_t *freed);

/*
 * Lets a client leave, in parts, so that no call takes long: releases its slots, at most `most` of them, in the order of their
 * numbers. *count is how many, and for the i-th of them freed[i] is the frame that is free since, or PAGESHARE_NO_FRAME. From the
 * first call on the client lends no more. Call it until *count is 0: then the client is out, and its number may be another's.
 * A call looks at each slot of the domain once at most. Returns PAGESHARE_OK, _NO_MACHINE, _LENGTH (`most` is 0) or _NO_CLIENT (it
 * has not entered, or is out). *freed and *count are written only on PAGESHARE_OK.
 */
uint32_t pageshare_domain_leave(struct pageshare_domain *domain, uint32_t client, uint32_t *freed, size_t most, size_t *count);

/*
 * A page's fingerprint: 64 bits of its content under a salt, by the fast hash, whatever the domain's hash.
 * docs/FORMATS.md defines it. It is only a guess whether pages are equal. Clients compute it, so its salt isn't the domain's, which
 * clients mustn't know.
 */
uint64_t pageshare_domain_fingerprint(uint32_t salt, const uint8_t page[PAGESHARE_PAGE_BYTES]);

/*
 * Asks about one page. *seen is then 1 if another page was asked about with this fingerprint, within the last config->recent
 * questions, by a client that has not left since; otherwise 0. A page is named by its client and by `page`, a number of the client's
 * choice for each of its pages. So a page that asks again doesn't see itself. The call doesn't look whether the client is in. Returns
 * PAGESHARE_OK or _NO_MACHINE.
 */
uint32_t pageshare_domain_ask(struct pageshare_domain *domain, uint32_t client, uint64_t page, uint64_t fingerprint, uint8_t *seen);

/* Asks about `count` pages, one after the other in this order; seen[i] is the answer for pages[i] and fingerprints[i]. Returns
 * PAGESHARE_OK, also for no page, or _NO_MACHINE, and then writes no answer. */
static inline uint32_t pageshare_domain_seen(struct pageshare_domain *domain, uint32_t client, const uint64_t *pages,
                                             const uint64_t *fingerprints, size_t count, uint8_t *seen) {
    for (size_t i = 0; i < count; i++) {
        uint32_t status = pageshare_domain_ask(domain, client, pages[i], fingerprints[i], seen + i);
        if (status != PAGESHARE_OK) return status;
    }
    return PAGESHARE_OK;
}

/* What a domain counts. */
struct pageshare_domain_totals {
    uint32_t machines;
    uint32_t clients;   /* the clients that have entered and aren't out */
    uint32_t slots;     /* the slots that clients have */
    uint32_t frames;    /* the frames in use */
    uint32_t shared;    /* the slots whose frame another slot has, too */
    uint32_t reclaimed; /* slots less frames: what sharing saves */
};

/* Writes the domain's totals. It looks at each slot. Returns PAGESHARE_OK or _NO_MACHINE. */
uint32_t pageshare_domain_report(struct pageshare_domain *domain, struct pageshare_domain_totals *totals);

#ifdef __cplusplus
}
#endif

#endif
