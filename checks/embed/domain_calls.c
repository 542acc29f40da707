/*
 * Domains beside a shadow of them. Prints "ok", or what failed.
 *
 *     domain_calls [RUNS [SEED]]      that many random runs, by default 100, from this seed on, by default 1
 *     domain_calls full               100 clients with 3,000,000 pages over four machines; prints the time of a lend
 *
 * A run makes a domain of 1 to 200 clients and calls it at random: lends of few contents, releases, also of slots that are another's
 * or nobody's, clients that enter and leave in parts, questions. The shadow knows what each call must answer, but for which frame and
 * which slot a page gets. After each call every frame that a slot has is read whole, through a mapping for reading alone, and frames
 * that none has are punched out of the file at random.
 *
 * While a call runs, the frames that slots have can't be written, but for those that the call itself frees: a write to one ends the
 * test.
 */
#define _GNU_SOURCE
#include "../../window/bytes.h"
#include "check.h"
#include "pageshare.h"
#include <signal.h>
#include <stdlib.h>
#include <string.h>
#include <sys/mman.h>
#include <time.h>
#include <unistd.h>

enum { PAGE = PAGESHARE_PAGE_BYTES, CONTENTS = 64, MAX_CLIENTS = 200, MAX_SLOTS = 4 * 60, MAX_FRAMES = 4 * 40, MAX_RECENT = 8 };

/* ---- the frames' file */

struct memory {
    int file;
    uint8_t *written;
    const uint8_t *read;
    size_t bytes;
};

static bool open_memory(struct memory *memory, size_t frames) {
    memory->bytes = frames * PAGE;
    memory->file = memfd_create("frames", MFD_CLOEXEC);
    if (memory->file < 0 || ftruncate(memory->file, (off_t)memory->bytes) != 0) return false;
    void *written = mmap(NULL, memory->bytes, PROT_READ | PROT_WRITE, MAP_SHARED, memory->file, 0);
    void *read = mmap(NULL, memory->bytes, PROT_READ, MAP_SHARED, memory->file, 0);
    memory->written = written;
    memory->read = read;
    return written != MAP_FAILED && read != MAP_FAILED;
}

static void close_memory(struct memory *memory) {
    CHECK(munmap(memory->written, memory->bytes) == 0 && munmap((void *)(uintptr_t)memory->read, memory->bytes) == 0 &&
          close(memory->file) == 0);
}

static struct pageshare_domain_config config_of(uint32_t machines, uint32_t slots, uint32_t frames, uint32_t clients,
                                                const struct memory *memory) {
    return (struct pageshare_domain_config){.size = sizeof(struct pageshare_domain_config),
                                            .machines = machines,
                                            .slots = slots,
                                            .frames = frames,
                                            .clients = clients,
                                            .recent = MAX_RECENT,
                                            .hash = PAGESHARE_FOLD,
                                            .salt = 7,
                                            .seed = 9,
                                            .region = memory == NULL ? NULL : memory->written,
                                            .region_bytes = memory == NULL ? 0 : memory->bytes};
}

/* ---- contents: each second one differs from the one before it in its last byte alone */

static uint8_t contents[CONTENTS][PAGE];

static void fill_contents(void) {
    for (uint32_t i = 0; i < CONTENTS; i++) {
        memset(contents[i], (int)(i / 2), PAGE);
        contents[i][PAGE - 1] = (uint8_t)(i % 2 == 0 ? i / 2 : 200);
    }
}

/* ---- statuses, by hand */

static void check_made(void) {
    static _Alignas(PAGE) uint8_t region[4 * PAGE];
    struct pageshare_domain domain = PAGESHARE_DOMAIN_NONE;
    struct pageshare_domain_config config = config_of(2, 3, 2, 2, NULL);
#define MADE(change, status)                                                                    \
    do {                                                                                        \
        struct pageshare_domain_config changed = config;                                        \
        change;                                                                                 \
        CHECK(pageshare_domain_make(&domain, &changed) == (status) && !domain.private_live);    \
    } while (0)
    MADE(changed.size = 1; changed.hash = 3, PAGESHARE_ERROR_SIZE);
    MADE(changed.hash = 3; changed.machines = 0, PAGESHARE_ERROR_HASH);
    MADE(changed.machines = 0; changed.slots = 0, PAGESHARE_ERROR_MACHINES);
    MADE(changed.machines = 65, PAGESHARE_ERROR_MACHINES);
    MADE(changed.slots = 0; changed.frames = 1, PAGESHARE_ERROR_SLOTS);
    MADE(changed.slots = 1048577, PAGESHARE_ERROR_SLOTS);
    MADE(changed.frames = 1; changed.clients = 0, PAGESHARE_ERROR_FRAMES);
    MADE(changed.frames = 1048577, PAGESHARE_ERROR_FRAMES);
    MADE(changed.clients = 0; changed.recent = 0, PAGESHARE_ERROR_CLIENTS);
    MADE(changed.clients = 65537, PAGESHARE_ERROR_CLIENTS);
    MADE(changed.recent = 0; changed.region = region, PAGESHARE_ERROR_RECENT);
    MADE(changed.recent = 16777217, PAGESHARE_ERROR_RECENT);
    MADE(changed.region = region; changed.region_bytes = 4 * PAGE - 1, PAGESHARE_ERROR_REGION);
    MADE(changed.region = region + 1; changed.region_bytes = 3 * PAGE, PAGESHARE_ERROR_REGION);
    config.region = region;
    config.region_bytes = sizeof region;
    CHECK(pageshare_domain_make(&domain, &config) == PAGESHARE_OK);
    config.hash = 3;
    CHECK(pageshare_domain_make(&domain, &config) == PAGESHARE_ERROR_IN_USE);
    CHECK(pageshare_domain_free(&domain) == PAGESHARE_OK && pageshare_domain_free(&domain) == PAGESHARE_ERROR_NO_MACHINE);
}

/* A domain that was begun is none until it has the frames of each machine. */
static void check_begun(void) {
    static _Alignas(PAGE) uint8_t region[4 * PAGE];
    const struct pageshare_domain_shape shape = {2, 3, 2, 1, 1, 7, 9};
    const struct pageshare_region first = {region, 2}, second = {region + 2 * PAGE, 2}, small = {region, 1};
    struct pageshare_domain domain = PAGESHARE_DOMAIN_NONE;
    uint32_t client = 9;
    CHECK(pageshare_domain_add(&domain, first) == PAGESHARE_ERROR_NO_MACHINE);
    CHECK(pageshare_domain_begin(&domain, &shape, PAGESHARE_FOLD, 3) == PAGESHARE_ERROR_REGION);
    CHECK(pageshare_domain_begin(&domain, &shape, PAGESHARE_FOLD, 4) == PAGESHARE_OK);
    CHECK(pageshare_domain_begin(&domain, &shape, PAGESHARE_FOLD, 4) == PAGESHARE_ERROR_IN_USE);
    CHECK(pageshare_domain_free(&domain) == PAGESHARE_OK);
    CHECK(pageshare_domain_begin(&domain, &shape, PAGESHARE_FOLD, 4) == PAGESHARE_OK);
    CHECK(pageshare_domain_add(&domain, small) == PAGESHARE_ERROR_REGION && pageshare_domain_add(&domain, first) == PAGESHARE_OK);
    CHECK(pageshare_domain_enter(&domain, &client) == PAGESHARE_ERROR_NO_MACHINE && client == 9);
    CHECK(pageshare_domain_add(&domain, second) == PAGESHARE_OK && pageshare_domain_add(&domain, second) == PAGESHARE_ERROR_NO_MACHINE);
    CHECK(pageshare_domain_enter(&domain, &client) == PAGESHARE_OK && client == 0);
    CHECK(pageshare_domain_free(&domain) == PAGESHARE_OK);
}

static void check_no_domain(void) {
    struct pageshare_domain domain = PAGESHARE_DOMAIN_NONE;
    struct pageshare_domain_totals totals = {9, 9, 9, 9, 9, 9};
    const uint64_t number = 0;
    uint32_t client = 9, freed = 9;
    size_t count = 9;
    uint8_t seen = 9;
    CHECK(pageshare_domain_enter(&domain, &client) == PAGESHARE_ERROR_NO_MACHINE && client == 9);
    struct pageshare_loan loan = pageshare_domain_lend(&domain, 0, contents[0]);
    CHECK(loan.status == PAGESHARE_ERROR_NO_MACHINE && loan.frame == PAGESHARE_NO_FRAME && loan.slot == 0 && loan.sharers == 0);
    CHECK(pageshare_domain_release(&domain, 0, 0, &freed) == PAGESHARE_ERROR_NO_MACHINE && freed == 9);
    CHECK(pageshare_domain_leave(&domain, 0, &freed, 1, &count) == PAGESHARE_ERROR_NO_MACHINE && freed == 9 && count == 9);
    CHECK(pageshare_domain_seen(&domain, 0, &number, &number, 1, &seen) == PAGESHARE_ERROR_NO_MACHINE && seen == 9);
    CHECK(pageshare_domain_ask(&domain, 0, 0, 0, &seen) == PAGESHARE_ERROR_NO_MACHINE && seen == 9);
    CHECK(pageshare_domain_report(&domain, &totals) == PAGESHARE_ERROR_NO_MACHINE && totals.slots == 9);
}

static bool reports(struct pageshare_domain *domain, struct pageshare_domain_totals wanted) {
    struct pageshare_domain_totals totals;
    return pageshare_domain_report(domain, &totals) == PAGESHARE_OK && memcmp(&totals, &wanted, sizeof wanted) == 0;
}

/* One machine of three slots and three frames, of which one is spare, and room for two clients. */
static void check_calls(uint32_t hash) {
    struct pageshare_domain domain = PAGESHARE_DOMAIN_NONE;
    struct pageshare_domain_config config = config_of(1, 3, 3, 2, NULL);
    uint32_t client = 9, freed[3] = {9, 9, 9};
    size_t count = 9;
    config.hash = hash;
    CHECK(pageshare_domain_make(&domain, &config) == PAGESHARE_OK && reports(&domain, (struct pageshare_domain_totals){1, 0, 0, 0, 0, 0}));
    CHECK(pageshare_domain_lend(&domain, 0, contents[1]).status == PAGESHARE_ERROR_NO_CLIENT);
    CHECK(pageshare_domain_enter(&domain, &client) == PAGESHARE_OK && client == 0);
    CHECK(pageshare_domain_enter(&domain, &client) == PAGESHARE_OK && client == 1);
    CHECK(pageshare_domain_enter(&domain, &client) == PAGESHARE_ERROR_NO_ROOM && client == 1);
    CHECK(pageshare_domain_lend(&domain, 2, contents[1]).status == PAGESHARE_ERROR_NO_CLIENT);
    struct pageshare_loan one = pageshare_domain_lend(&domain, 0, contents[1]), two = pageshare_domain_lend(&domain, 1, contents[2]);
    CHECK(one.status == PAGESHARE_OK && one.sharers == 1 && two.status == PAGESHARE_OK && two.frame != one.frame);
    struct pageshare_loan other = pageshare_domain_lend(&domain, 1, contents[3]);
    CHECK(other.status == PAGESHARE_ERROR_NO_FRAME && other.frame == PAGESHARE_NO_FRAME && other.sharers == 0);
    struct pageshare_loan same = pageshare_domain_lend(&domain, 1, contents[1]);
    CHECK(same.status == PAGESHARE_OK && same.frame == one.frame && same.slot != one.slot && same.sharers == 2);
    CHECK(reports(&domain, (struct pageshare_domain_totals){1, 2, 3, 2, 2, 1}));
    CHECK(pageshare_domain_lend(&domain, 1, contents[1]).status == PAGESHARE_ERROR_NO_SLOT);
    CHECK(pageshare_domain_release(&domain, 1, one.slot, freed) == PAGESHARE_ERROR_NOT_ITS_SLOT && freed[0] == 9);
    CHECK(pageshare_domain_release(&domain, 0, UINT64_MAX, freed) == PAGESHARE_ERROR_NOT_ITS_SLOT && freed[0] == 9);
    CHECK(pageshare_domain_release(&domain, 0, one.slot, freed) == PAGESHARE_OK && freed[0] == PAGESHARE_NO_FRAME);
    CHECK(pageshare_domain_release(&domain, 0, one.slot, freed) == PAGESHARE_ERROR_NOT_ITS_SLOT);
    CHECK(pageshare_domain_leave(&domain, 1, freed, 0, &count) == PAGESHARE_ERROR_LENGTH && count == 9);
    bool two_first = two.slot < same.slot;
    freed[0] = freed[1] = 9;
    CHECK(pageshare_domain_leave(&domain, 1, freed, 1, &count) == PAGESHARE_OK && count == 1 && freed[1] == 9);
    CHECK(freed[0] == (two_first ? two.frame : same.frame));
    CHECK(pageshare_domain_lend(&domain, 1, contents[1]).status == PAGESHARE_ERROR_NO_CLIENT);
    CHECK(pageshare_domain_release(&domain, 1, two_first ? same.slot : two.slot, freed) == PAGESHARE_OK);
    CHECK(freed[0] == (two_first ? same.frame : two.frame));
    CHECK(pageshare_domain_enter(&domain, &client) == PAGESHARE_ERROR_NO_ROOM);
    CHECK(pageshare_domain_leave(&domain, 1, freed, 3, &count) == PAGESHARE_OK && count == 0);
    CHECK(pageshare_domain_leave(&domain, 1, freed, 3, &count) == PAGESHARE_ERROR_NO_CLIENT && freed[1] == 9);
    CHECK(reports(&domain, (struct pageshare_domain_totals){1, 1, 0, 0, 0, 0}));
    CHECK(pageshare_domain_enter(&domain, &client) == PAGESHARE_OK && client == 1);
    CHECK(pageshare_domain_free(&domain) == PAGESHARE_OK);
}

static void check_seen(void) {
    struct pageshare_domain domain = PAGESHARE_DOMAIN_NONE;
    struct pageshare_domain_config config = config_of(1, 1, 2, 1, NULL);
    const uint64_t pages[] = {1, 2, 1, 3}, fingerprints[] = {5, 5, 5, 6};
    uint8_t seen[4] = {9, 9, 9, 9};
    config.recent = 3;
    CHECK(pageshare_domain_make(&domain, &config) == PAGESHARE_OK);
    CHECK(pageshare_domain_seen(&domain, 0, pages, fingerprints, 4, seen) == PAGESHARE_OK);
    CHECK(seen[0] == 0 && seen[1] == 1 && seen[2] == 1 && seen[3] == 0);
    CHECK(pageshare_domain_seen(&domain, 7, pages, fingerprints, 1, seen) == PAGESHARE_OK && seen[0] == 1);
    CHECK(pageshare_domain_free(&domain) == PAGESHARE_OK);
    CHECK(pageshare_domain_fingerprint(1, contents[4]) == fingerprint_of(1, contents[4]));
    CHECK(pageshare_domain_fingerprint(1, contents[4]) != pageshare_domain_fingerprint(1, contents[5]));
    CHECK(pageshare_domain_fingerprint(1, contents[4]) != pageshare_domain_fingerprint(2, contents[4]));
}

/* ---- the shadow */

enum presence { OUT, IN, LEAVING };

struct held {
    bool used;
    uint64_t slot;
    uint32_t client, frame, content;
};

struct question {
    uint64_t page, fingerprint;
    uint32_t client;
    unsigned left; /* how often the client had left by then */
};

struct shadow {
    struct pageshare_domain domain;
    struct memory memory;
    uint32_t machines, slots, frames, clients; /* slots and frames of one machine */
    enum presence presence[MAX_CLIENTS];
    struct held held[MAX_SLOTS];
    uint32_t sharers[MAX_FRAMES], content[MAX_FRAMES];
    int machine_of[CONTENTS]; /* where a content's pages go, or -1 as long as it isn't known */
    struct question asked[MAX_RECENT];
    uint32_t recent, questions;
    unsigned left[MAX_CLIENTS + 1]; /* calls by which a client left, or began to */
};

static uint32_t some(uint32_t below) {
    return (uint32_t)rand() % below;
}

static uint32_t all_frames(const struct shadow *s) {
    return s->machines * s->frames;
}

static uint32_t slots_used(const struct shadow *s, uint32_t machine) {
    uint32_t used = 0;
    for (uint32_t i = 0; i < MAX_SLOTS; i++) used += s->held[i].used && s->held[i].frame / s->frames == machine;
    return used;
}

static uint32_t frames_used(const struct shadow *s, uint32_t machine) {
    uint32_t used = 0;
    for (uint32_t i = 0; i < s->frames; i++) used += s->sharers[machine * s->frames + i] > 0;
    return used;
}

static uint32_t frame_with(const struct shadow *s, uint32_t content) {
    for (uint32_t i = 0; i < all_frames(s); i++)
        if (s->sharers[i] > 0 && s->content[i] == content) return i;
    return PAGESHARE_NO_FRAME;
}

static struct held *with_slot(struct shadow *s, uint64_t slot) {
    for (uint32_t i = 0; i < MAX_SLOTS; i++)
        if (s->held[i].used && s->held[i].slot == slot) return &s->held[i];
    return NULL;
}

/* The slot of a client that has the least number, or NULL. */
static struct held *first_of(struct shadow *s, uint32_t client) {
    struct held *first = NULL;
    for (uint32_t i = 0; i < MAX_SLOTS; i++)
        if (s->held[i].used && s->held[i].client == client && (first == NULL || s->held[i].slot < first->slot)) first = &s->held[i];
    return first;
}

/* Gives a slot up, and returns the frame that is free since. */
static uint32_t give_up(struct shadow *s, struct held *held) {
    held->used = false;
    return --s->sharers[held->frame] == 0 ? held->frame : PAGESHARE_NO_FRAME;
}

/* ---- no write while a call runs */

static void written(int signal) {
    static const char text[] = "a frame that a slot has was written during a call\n";
    (void)signal;
    if (write(STDOUT_FILENO, text, sizeof text - 1) < 0) _exit(2);
    _exit(1);
}

/* Lets nobody write to the frames that slots have. A call that releases slots is guarded after the shadow has given them up. */
static void guard(const struct shadow *s) {
    for (uint32_t i = 0, end; i < all_frames(s); i = end) {
        for (end = i + 1; end < all_frames(s) && (s->sharers[end] > 0) == (s->sharers[i] > 0); end++) continue;
        if (s->sharers[i] > 0) CHECK(mprotect(s->memory.written + (size_t)i * PAGE, (size_t)(end - i) * PAGE, PROT_READ) == 0);
    }
}

static void unguard(const struct shadow *s) {
    CHECK(mprotect(s->memory.written, s->memory.bytes, PROT_READ | PROT_WRITE) == 0);
}

/* ---- one call each */

static void enter(struct shadow *s) {
    uint32_t client = 9999, wanted = 0;
    while (wanted < s->clients && s->presence[wanted] != OUT) wanted++;
    guard(s);
    uint32_t status = pageshare_domain_enter(&s->domain, &client);
    unguard(s);
    if (wanted == s->clients) {
        CHECK(status == PAGESHARE_ERROR_NO_ROOM && client == 9999);
        return;
    }
    CHECK(status == PAGESHARE_OK && client == wanted);
    s->presence[wanted] = IN;
}

/* Whether a page of this content may be refused with this status. Where its machine isn't known yet, any may be the cause. */
static bool may_refuse(const struct shadow *s, uint32_t content, uint32_t status) {
    for (uint32_t m = 0; m < s->machines; m++) {
        if (s->machine_of[content] >= 0 && (uint32_t)s->machine_of[content] != m) continue;
        bool full = slots_used(s, m) == s->slots;
        bool spent = frame_with(s, content) == PAGESHARE_NO_FRAME && frames_used(s, m) + 1 == s->frames;
        if (status == PAGESHARE_ERROR_NO_SLOT && full) return true;
        if (status == PAGESHARE_ERROR_NO_FRAME && !full && spent) return true;
    }
    return false;
}

static void check_loan(struct shadow *s, uint32_t client, uint32_t content, struct pageshare_loan loan) {
    uint32_t machine = loan.frame / s->frames, equal = frame_with(s, content), place = 0;
    bool fits = loan.frame < all_frames(s) && with_slot(s, loan.slot) == NULL;
    CHECK(fits);
    if (!fits) return;
    CHECK(s->machine_of[content] < 0 || (uint32_t)s->machine_of[content] == machine);
    s->machine_of[content] = (int)machine;
    CHECK(slots_used(s, machine) < s->slots);
    CHECK(equal == PAGESHARE_NO_FRAME ? s->sharers[loan.frame] == 0 && frames_used(s, machine) + 1 < s->frames : loan.frame == equal);
    while (s->held[place].used) place++;
    s->held[place] = (struct held){true, loan.slot, client, loan.frame, content};
    s->content[loan.frame] = content;
    s->sharers[loan.frame]++;
    CHECK(loan.sharers == s->sharers[loan.frame]);
}

static void lend(struct shadow *s, uint32_t client, uint32_t content) {
    guard(s);
    struct pageshare_loan loan = pageshare_domain_lend(&s->domain, client, contents[content]);
    unguard(s);
    bool in = client < s->clients && s->presence[client] == IN;
    if (loan.status == PAGESHARE_OK && in) {
        check_loan(s, client, content, loan);
        return;
    }
    CHECK(loan.frame == PAGESHARE_NO_FRAME && loan.slot == 0 && loan.sharers == 0);
    CHECK(in ? may_refuse(s, content, loan.status) : loan.status == PAGESHARE_ERROR_NO_CLIENT);
}

static void release(struct shadow *s, uint32_t client, uint64_t slot) {
    struct held *held = with_slot(s, slot);
    bool its = held != NULL && held->client == client;
    uint32_t freed = 9999, wanted = its ? give_up(s, held) : 9999;
    guard(s);
    uint32_t status = pageshare_domain_release(&s->domain, client, slot, &freed);
    unguard(s);
    CHECK(status == (its ? PAGESHARE_OK : PAGESHARE_ERROR_NOT_ITS_SLOT) && freed == wanted);
}

static void leave(struct shadow *s, uint32_t client) {
    uint32_t freed[8], wanted[8];
    size_t most = 1 + some(7), expected = 0, count = 9999;
    bool here = client < s->clients && s->presence[client] != OUT;
    for (struct held *held; here && expected < most && (held = first_of(s, client)) != NULL; expected++) wanted[expected] = give_up(s, held);
    guard(s);
    uint32_t status = pageshare_domain_leave(&s->domain, client, freed, most, &count);
    unguard(s);
    if (!here) {
        CHECK(status == PAGESHARE_ERROR_NO_CLIENT && count == 9999);
        return;
    }
    CHECK(status == PAGESHARE_OK && count == expected);
    s->presence[client] = expected == 0 ? OUT : LEAVING;
    s->left[client]++;
    for (size_t i = 0; i < expected && i < count; i++) CHECK(freed[i] == wanted[i]);
}

static void ask(struct shadow *s, uint32_t client) {
    struct question q = {some(4), some(4), client, s->left[client]};
    uint8_t seen = 9, wanted = 0;
    uint32_t from = s->questions > s->recent ? s->questions - s->recent : 0;
    for (uint32_t i = from; i < s->questions; i++) {
        const struct question *old = &s->asked[i % s->recent];
        bool counts = old->left == s->left[old->client];
        if (counts && old->fingerprint == q.fingerprint && (old->client != client || old->page != q.page)) wanted = 1;
    }
    guard(s);
    CHECK(pageshare_domain_seen(&s->domain, client, &q.page, &q.fingerprint, 1, &seen) == PAGESHARE_OK && seen == wanted);
    unguard(s);
    s->asked[s->questions++ % s->recent] = q;
}

/* ---- after each call */

static void check_frames(const struct shadow *s) {
    for (uint32_t i = 0; i < all_frames(s); i++)
        if (s->sharers[i] > 0) CHECK(memcmp(s->memory.read + (size_t)i * PAGE, contents[s->content[i]], PAGE) == 0);
    uint32_t frame = some(all_frames(s));
    if (s->sharers[frame] == 0) CHECK(madvise(s->memory.written + (size_t)frame * PAGE, PAGE, MADV_REMOVE) == 0);
}

static void check_totals(struct shadow *s) {
    struct pageshare_domain_totals wanted = {s->machines, 0, 0, 0, 0, 0};
    for (uint32_t i = 0; i < s->clients; i++) wanted.clients += s->presence[i] != OUT;
    for (uint32_t m = 0; m < s->machines; m++) wanted.frames += frames_used(s, m);
    for (uint32_t i = 0; i < MAX_SLOTS; i++) {
        wanted.slots += s->held[i].used;
        wanted.shared += s->held[i].used && s->sharers[s->held[i].frame] > 1;
    }
    wanted.reclaimed = wanted.slots - wanted.frames;
    CHECK(reports(&s->domain, wanted));
}

/* A slot that is somebody's, and now and then another number. */
static uint64_t some_slot(const struct shadow *s) {
    const struct held *held = &s->held[some(MAX_SLOTS)];
    for (uint32_t i = 0; i < 20 && !held->used; i++) held = &s->held[some(MAX_SLOTS)];
    return some(20) == 0 ? some(100) : held->slot;
}

static void call(struct shadow *s, uint32_t kinds) {
    uint32_t client = some(s->clients + (some(10) == 0)), kind = some(100);
    uint64_t slot = some_slot(s);
    struct held *held = with_slot(s, slot);
    if (kind < 12) {
        enter(s);
    } else if (kind < 65) {
        lend(s, client, some(kinds));
    } else if (kind < 88) {
        release(s, held != NULL && some(10) != 0 ? held->client : client, slot);
    } else if (kind < 94) {
        leave(s, client);
    } else {
        ask(s, client);
    }
    check_frames(s);
    check_totals(s);
}

/* All leave, and then no slot and no frame is in use. */
static void check_end(struct shadow *s) {
    for (uint32_t i = 0; i < s->clients; i++)
        while (s->presence[i] != OUT && failures == 0) leave(s, i);
    CHECK(reports(&s->domain, (struct pageshare_domain_totals){s->machines, 0, 0, 0, 0, 0}));
}

static void run(unsigned seed) {
    static const uint32_t clients[] = {1, 2, 5, 30, MAX_CLIENTS}, hashes[] = {PAGESHARE_SHA256, PAGESHARE_FOLD, PAGESHARE_SHA256_WIDE};
    static struct shadow s;
    srand(seed);
    memset(&s, 0, sizeof s);
    s.machines = 1 + some(4);
    s.slots = 1 + some(60);
    s.frames = 2 + some(39);
    s.clients = clients[some(5)];
    s.recent = 1 + some(MAX_RECENT);
    for (uint32_t i = 0; i < CONTENTS; i++) s.machine_of[i] = -1;
    CHECK(open_memory(&s.memory, all_frames(&s)));
    struct pageshare_domain_config config = config_of(s.machines, s.slots, s.frames, s.clients, &s.memory);
    config.hash = hashes[some(10) < 7 ? 1 : some(3)];
    config.recent = s.recent;
    CHECK(pageshare_domain_make(&s.domain, &config) == PAGESHARE_OK);
    uint32_t calls = 100 + 2 * s.clients, kinds = 2 + some(CONTENTS - 1);
    for (uint32_t i = 0; i < calls && failures == 0; i++) call(&s, kinds);
    check_end(&s);
    CHECK(pageshare_domain_free(&s.domain) == PAGESHARE_OK);
    close_memory(&s.memory);
    if (failures > 0) printf("in the run of seed %u\n", seed);
}

/* ---- many clients with many pages */

enum { FULL_CLIENTS = 100, FULL_PAGES = 30000, FULL_CONTENTS = 20000, FULL_MACHINES = 4, FULL_FRAMES = 6000, FULL_SLOTS = 1048576 };

static void fill_number(uint8_t *page, uint32_t number) {
    for (size_t i = 0; i < PAGE; i += sizeof number) memcpy(page + i, &number, sizeof number);
}

/* The content of a client's page: each has a part of the contents, most of them more than once. */
static uint32_t full_content(uint32_t client, uint32_t n) {
    return (client * 7919u + n * 31u) % FULL_CONTENTS;
}

static void check_full(void) {
    struct memory memory;
    struct pageshare_domain domain = PAGESHARE_DOMAIN_NONE;
    uint32_t *frame_of = malloc(FULL_CONTENTS * sizeof *frame_of), *freed = malloc(FULL_SLOTS * sizeof *freed), wrong = 0, client;
    uint8_t *pages = malloc((size_t)FULL_CONTENTS * PAGE);
    struct timespec from, to;
    if (frame_of == NULL || freed == NULL || pages == NULL || !open_memory(&memory, FULL_MACHINES * FULL_FRAMES)) exit(2);
    struct pageshare_domain_config config = config_of(FULL_MACHINES, FULL_SLOTS, FULL_FRAMES, FULL_CLIENTS, &memory);
    CHECK(pageshare_domain_make(&domain, &config) == PAGESHARE_OK);
    for (uint32_t i = 0; i < FULL_CONTENTS; i++) {
        fill_number(pages + (size_t)i * PAGE, i);
        frame_of[i] = PAGESHARE_NO_FRAME;
    }
    clock_gettime(CLOCK_MONOTONIC, &from);
    for (uint32_t i = 0; i < FULL_CLIENTS; i++) {
        wrong += pageshare_domain_enter(&domain, &client) != PAGESHARE_OK || client != i;
        for (uint32_t n = 0; n < FULL_PAGES; n++) {
            uint32_t content = full_content(i, n);
            struct pageshare_loan loan = pageshare_domain_lend(&domain, i, pages + (size_t)content * PAGE);
            wrong += loan.status != PAGESHARE_OK || (frame_of[content] != PAGESHARE_NO_FRAME && frame_of[content] != loan.frame);
            frame_of[content] = loan.frame;
        }
    }
    clock_gettime(CLOCK_MONOTONIC, &to);
    CHECK(wrong == 0 && reports(&domain, (struct pageshare_domain_totals){FULL_MACHINES, FULL_CLIENTS, 3000000, FULL_CONTENTS, 3000000, 2980000}));
    for (uint32_t i = 0; i < FULL_CONTENTS; i++)
        wrong += memcmp(memory.read + (size_t)frame_of[i] * PAGE, pages + (size_t)i * PAGE, PAGE) != 0;
    for (uint32_t i = 0; i < FULL_CLIENTS; i++)
        for (size_t count = 1; count != 0;) wrong += pageshare_domain_leave(&domain, i, freed, 10000, &count) != PAGESHARE_OK;
    CHECK(wrong == 0 && reports(&domain, (struct pageshare_domain_totals){FULL_MACHINES, 0, 0, 0, 0, 0}));
    CHECK(pageshare_domain_free(&domain) == PAGESHARE_OK);
    close_memory(&memory);
    double seconds = (double)(to.tv_sec - from.tv_sec) + (double)(to.tv_nsec - from.tv_nsec) / 1e9;
    fprintf(stderr, "%u clients, %u pages, %u contents: %.2f microseconds a lend\n", FULL_CLIENTS, FULL_CLIENTS * FULL_PAGES, FULL_CONTENTS,
            seconds / (FULL_CLIENTS * FULL_PAGES) * 1e6);
    free(frame_of);
    free(freed);
    free(pages);
}

int main(int count, char **words) {
    unsigned runs = count > 1 ? (unsigned)strtoul(words[1], NULL, 10) : 100, seed = count > 2 ? (unsigned)strtoul(words[2], NULL, 10) : 1;
    fill_contents();
    if (count > 1 && strcmp(words[1], "full") == 0) {
        check_full();
    } else {
        check_made();
        check_begun();
        check_no_domain();
        for (uint32_t hash = PAGESHARE_SHA256; hash <= PAGESHARE_SHA256_WIDE; hash++) check_calls(hash);
        check_seen();
        signal(SIGSEGV, written);
        for (unsigned i = 0; i < runs && failures == 0; i++) run(seed + i);
    }
    if (failures == 0) printf("ok\n");
    return failures == 0 ? 0 : 1;
}
