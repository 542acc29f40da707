/*
 * A host over the library, as a program calls it: its statuses, a dialogue of two clients, each fault of a packet, a session that is
 * taken up, sessions that end, a client that comes after the pages were lent, what packets and replies say, and fingerprints beside
 * those that window/ computes.
 * What each call must give was worked out by hand. Prints "ok", or what failed.
 */
#include "../../window/bytes.h"
#include "check.h"
#include "pageshare_host.h"
#include <stdlib.h>
#include <string.h>

enum { PAGE = 4096, FRAMES = 5, SESSIONS = 3, QUOTA = 4, FREED = PAGESHARE_HOST_MAX_PAGES };

static const uint8_t names[4][PAGESHARE_HOST_NAME_BYTES] = {{1}, {2}, {3}, {4}};
static const struct pageshare_host_shape shape = {
    .machines = 1, .slots = 8, .frames = FRAMES, .sessions = SESSIONS, .recent = 16, .quota = QUOTA, .salt = 9, .fingerprints = 7, .seed = 5, .client_cpu = 25};

/* ---- packets */

/* What the last packet of a session came to. */
static struct pageshare_host_received got;
static uint8_t reply[PAGESHARE_HOST_MAX_MESSAGE];
static uint32_t freed[FREED];
static uint8_t pages[QUOTA + 1][PAGE];

static void receive(struct pageshare_host *host, uint32_t session, const void *bytes, size_t length, size_t count) {
    memset(reply, 0xaa, sizeof reply);
    memset(freed, 0xbb, sizeof freed);
    got = pageshare_host_receive(host, session, bytes, length, (const uint8_t(*)[PAGE])pages, count, reply, sizeof reply, freed, FREED);
}

/* A session's first message: it wants the session with a name, in which so many LOANS came, or a new one. */
static void take_up(struct pageshare_host *host, uint32_t session, const uint8_t *name, uint64_t loans) {
    struct pageshare_host_hello message = {.kind = PAGESHARE_HOST_HELLO, .version = PAGESHARE_HOST_VERSION, .loans = loans};
    if (name != NULL) memcpy(message.name, name, sizeof message.name);
    receive(host, session, &message, name != NULL ? sizeof message : 8, 0);
}

static void hello(struct pageshare_host *host, uint32_t session, const uint8_t *name) { take_up(host, session, name, 1); }

static void lend(struct pageshare_host *host, uint32_t session, uint32_t count) {
    struct pageshare_host_lend message = {.kind = PAGESHARE_HOST_LEND, .count = count};
    receive(host, session, &message, sizeof message, QUOTA + 1);
}

static void release(struct pageshare_host *host, uint32_t session, uint64_t first, uint64_t second) {
    struct pageshare_host_release message = {.kind = PAGESHARE_HOST_RELEASE, .count = 2, .slots = {first, second}};
    receive(host, session, &message, 24, 0);
}

static struct pageshare_host_lent loan(size_t at) {
    struct pageshare_host_lent known;
    memcpy(&known, reply + 8 + at * sizeof known, sizeof known);
    return known;
}

static bool is_welcome(const uint8_t *name) {
    struct pageshare_host_welcome known;
    memcpy(&known, reply, sizeof known);
    return got.status == PAGESHARE_HOST_OK && got.reply_bytes == 40 && got.freed == 0 && known.kind == PAGESHARE_HOST_WELCOME &&
           known.version == PAGESHARE_HOST_VERSION && memcmp(known.name, name, sizeof known.name) == 0 && known.frames == FRAMES && known.salt == 7 &&
           known.most == PAGESHARE_HOST_MAX_PAGES && known.client_cpu == 25;
}

/* Whether a session is described so. */
static bool has_session(struct pageshare_host *host, uint32_t session, uint32_t state, uint32_t slots, uint32_t fault, uint64_t messages) {
    struct pageshare_host_session known = {9, 9, 9, 9, 9};
    return pageshare_host_session(host, session, &known) == PAGESHARE_HOST_OK && known.state == state && known.slots == slots &&
           known.fault == fault && known.reserved == 0 && known.messages == messages;
}

static bool counts(struct pageshare_host *host, uint32_t clients, uint32_t slots, uint32_t frames, uint32_t shared) {
    struct pageshare_host_totals known = {9, 9, 9, 9, 9, 9};
    return pageshare_host_report(host, &known) == PAGESHARE_HOST_OK && known.machines == 1 && known.clients == clients && known.slots == slots &&
           known.frames == frames && known.shared == shared && known.reclaimed == slots - frames;
}

/* ---- without a host */

/* Each call says that the handle holds no host that is made, and what it writes to stays. */
static void check_none(struct pageshare_host *host) {
    struct pageshare_host_session known = {9, 9, 9, 9, 9};
    struct pageshare_host_totals totals = {9, 9, 9, 9, 9, 9};
    uint32_t number = 77, frames[1] = {78};
    size_t count = 79;
    CHECK(pageshare_host_connect(host, names[0], &number) == PAGESHARE_HOST_ERROR_NO_HOST && number == 77);
    CHECK(pageshare_host_disconnect(host, 0) == PAGESHARE_HOST_ERROR_NO_HOST);
    CHECK(pageshare_host_end(host, 0, frames, 1, &count) == PAGESHARE_HOST_ERROR_NO_HOST && frames[0] == 78 && count == 79);
    CHECK(pageshare_host_session(host, 0, &known) == PAGESHARE_HOST_ERROR_NO_HOST && known.state == 9 && known.messages == 9);
    CHECK(pageshare_host_report(host, &totals) == PAGESHARE_HOST_ERROR_NO_HOST && totals.machines == 9);
    hello(host, 0, NULL);
    CHECK(got.status == PAGESHARE_HOST_ERROR_NO_HOST && got.reply_bytes == 0 && got.freed == 0 && got.resumed == PAGESHARE_HOST_NO_FRAME);
    CHECK(reply[0] == 0xaa && freed[0] == 0xbbbbbbbb);
}

/* The status for a shape in which one number is another. */
static uint32_t status_of(size_t member, uint32_t number) {
    struct pageshare_host host = PAGESHARE_HOST_NONE;
    struct pageshare_host_shape other = shape;
    memcpy((uint8_t *)&other + member, &number, sizeof number);
    uint32_t status = pageshare_host_begin(&host, &other);
    if (status == PAGESHARE_HOST_OK) pageshare_host_free(&host);
    return status;
}

static void check_shapes(void) {
    CHECK(status_of(offsetof(struct pageshare_host_shape, machines), 0) == PAGESHARE_HOST_ERROR_MACHINES);
    CHECK(status_of(offsetof(struct pageshare_host_shape, machines), 65) == PAGESHARE_HOST_ERROR_MACHINES);
    CHECK(status_of(offsetof(struct pageshare_host_shape, machines), 64) == PAGESHARE_HOST_OK);
    CHECK(status_of(offsetof(struct pageshare_host_shape, slots), 0) == PAGESHARE_HOST_ERROR_SLOTS);
    CHECK(status_of(offsetof(struct pageshare_host_shape, slots), 1048577) == PAGESHARE_HOST_ERROR_SLOTS);
    CHECK(status_of(offsetof(struct pageshare_host_shape, frames), 1) == PAGESHARE_HOST_ERROR_FRAMES);
    CHECK(status_of(offsetof(struct pageshare_host_shape, frames), 1048577) == PAGESHARE_HOST_ERROR_FRAMES);
    CHECK(status_of(offsetof(struct pageshare_host_shape, sessions), 0) == PAGESHARE_HOST_ERROR_SESSIONS);
    CHECK(status_of(offsetof(struct pageshare_host_shape, sessions), 65537) == PAGESHARE_HOST_ERROR_SESSIONS);
    CHECK(status_of(offsetof(struct pageshare_host_shape, recent), 0) == PAGESHARE_HOST_ERROR_RECENT);
    CHECK(status_of(offsetof(struct pageshare_host_shape, recent), 16777217) == PAGESHARE_HOST_ERROR_RECENT);
}

/* A host is begun, and made by the frames of its machine. */
static void check_begun(struct pageshare_host *host, void *region) {
    struct pageshare_host_region part = {region, FRAMES};
    struct pageshare_host_region short_part = {region, FRAMES - 1};
    check_none(host);
    CHECK(pageshare_host_free(host) == PAGESHARE_HOST_ERROR_NO_HOST);
    CHECK(pageshare_host_add(host, part) == PAGESHARE_HOST_ERROR_NO_HOST);
    CHECK(pageshare_host_begin(host, &shape) == PAGESHARE_HOST_OK);
    check_none(host);
    CHECK(pageshare_host_begin(host, &shape) == PAGESHARE_HOST_ERROR_IN_USE);
    CHECK(pageshare_host_add(host, short_part) == PAGESHARE_HOST_ERROR_REGION);
    CHECK(pageshare_host_free(host) == PAGESHARE_HOST_OK && pageshare_host_free(host) == PAGESHARE_HOST_ERROR_NO_HOST);
    CHECK(pageshare_host_make(host, &shape, region, (FRAMES - 1) * PAGE) == PAGESHARE_HOST_ERROR_REGION);
    CHECK(pageshare_host_make(host, &shape, region, FRAMES * PAGE) == PAGESHARE_HOST_OK);
    CHECK(pageshare_host_begin(host, &shape) == PAGESHARE_HOST_ERROR_IN_USE);
    CHECK(pageshare_host_add(host, part) == PAGESHARE_HOST_ERROR_NO_HOST);
    CHECK(counts(host, 0, 0, 0, 0));
}

/* ---- a dialogue */

/* Two clients connect and say hello; the buffers must be long enough. */
static void check_hello(struct pageshare_host *host) {
    const uint32_t bare[2] = {PAGESHARE_HOST_HELLO, PAGESHARE_HOST_VERSION};
    uint32_t number = 77;
    hello(host, 0, NULL);
    CHECK(got.status == PAGESHARE_HOST_ERROR_NO_SESSION && reply[0] == 0xaa);
    for (uint32_t i = 0; i < SESSIONS; i++) CHECK(pageshare_host_connect(host, names[i], &number) == PAGESHARE_HOST_OK && number == i);
    CHECK(pageshare_host_connect(host, names[3], &number) == PAGESHARE_HOST_ERROR_NO_ROOM && number == SESSIONS - 1);
    CHECK(has_session(host, 0, PAGESHARE_HOST_STATE_SILENT, 0, 0, 0));
    got = pageshare_host_receive(host, 0, (const uint8_t *)bare, 8, (const uint8_t(*)[PAGE])pages, 0, reply, sizeof reply - 1, freed, FREED);
    CHECK(got.status == PAGESHARE_HOST_ERROR_SHORT);
    got = pageshare_host_receive(host, 0, (const uint8_t *)bare, 8, (const uint8_t(*)[PAGE])pages, 0, reply, sizeof reply, freed, FREED - 1);
    CHECK(got.status == PAGESHARE_HOST_ERROR_SHORT);
    CHECK(has_session(host, 0, PAGESHARE_HOST_STATE_SILENT, 0, 0, 0));
    hello(host, 0, NULL);
    CHECK(is_welcome(names[0]) && got.resumed == PAGESHARE_HOST_NO_FRAME);
    hello(host, 1, names[3]);
    CHECK(is_welcome(names[1]) && got.resumed == PAGESHARE_HOST_NO_FRAME);
    CHECK(has_session(host, 1, PAGESHARE_HOST_STATE_TALKING, 0, 0, 1));
}

static void check_ask(struct pageshare_host *host) {
    struct pageshare_host_ask ask = {.kind = PAGESHARE_HOST_ASK, .count = 3, .questions = {{1, 50}, {2, 50}, {1, 50}}};
    const uint32_t head[2] = {PAGESHARE_HOST_SEEN, 3};
    for (size_t i = 0; i < 3; i++) ask.questions[i].page |= PAGESHARE_HOST_PASSING;
    receive(host, 0, &ask, 8 + 3 * 16, 0);
    CHECK(got.reply_bytes == 11 && reply[8] == 0 && reply[9] == 0 && reply[10] == 0);
    for (size_t i = 0; i < 3; i++) ask.questions[i].page &= ~PAGESHARE_HOST_PASSING;
    receive(host, 0, &ask, 8 + 3 * 16, 0);
    CHECK(got.status == PAGESHARE_HOST_OK && got.reply_bytes == 11 && memcmp(reply, head, 8) == 0);
    CHECK(reply[8] == 0 && reply[9] == 1 && reply[10] == 1 && reply[11] == 0xaa);
    ask.questions[2].page |= PAGESHARE_HOST_PASSING; /* the page that was asked about before, by its number */
    ask.questions[2].fingerprint = 51;
    receive(host, 0, &ask, 8 + 3 * 16, 0);
    CHECK(reply[8] == 1 && reply[9] == 1 && reply[10] == 0);
}

/* Session 0 lends five pages, of which the first two are equal, and may have four slots. Session 1 lends the first page, too. */
static void check_lends(struct pageshare_host *host, const uint8_t *region, uint64_t slots[5]) {
    for (size_t i = 0; i <= QUOTA; i++) memset(pages[i], (int)(i == 0 ? 1 : i), PAGE);
    lend(host, 0, QUOTA + 1);
    CHECK(got.status == PAGESHARE_HOST_OK && got.reply_bytes == 8 + 5 * 16 && got.freed == 0);
    for (size_t i = 0; i < QUOTA; i++) {
        slots[i] = loan(i).slot;
        CHECK(loan(i).frame < FRAMES && memcmp(region + loan(i).frame * (size_t)PAGE, pages[i], PAGE) == 0);
    }
    CHECK(loan(0).frame == loan(1).frame && loan(0).sharers == 1 && loan(1).sharers == 2 && loan(2).sharers == 1);
    CHECK(loan(4).slot == 0 && loan(4).frame == PAGESHARE_HOST_NO_FRAME && loan(4).sharers == 0);
    uint32_t shared_frame = loan(0).frame;
    lend(host, 1, 1);
    slots[4] = loan(0).slot;
    CHECK(got.reply_bytes == 24 && loan(0).frame == shared_frame && loan(0).sharers == 3);
    CHECK(counts(host, 2, 5, 3, 3));
}

/* A session's release of another's slot does nothing. */
static void check_releases(struct pageshare_host *host, const uint64_t slots[5]) {
    release(host, 1, slots[2], slots[0]);
    CHECK(got.status == PAGESHARE_HOST_OK && got.reply_bytes == 0 && got.freed == 2 && freed[0] == PAGESHARE_HOST_NO_FRAME);
    CHECK(freed[1] == PAGESHARE_HOST_NO_FRAME && freed[2] == 0xbbbbbbbb && counts(host, 2, 5, 3, 3));
    release(host, 0, slots[0], slots[2]);
    CHECK(got.freed == 2 && freed[0] == PAGESHARE_HOST_NO_FRAME && freed[1] < FRAMES && counts(host, 2, 3, 2, 2));
    CHECK(has_session(host, 0, PAGESHARE_HOST_STATE_TALKING, 2, 0, 6) && has_session(host, 1, PAGESHARE_HOST_STATE_TALKING, 1, 0, 3));
}

/* ---- connections that end */

/* Session 2 takes up session 0, which is free then. */
static void check_resumed(struct pageshare_host *host) {
    uint32_t number = 77;
    CHECK(pageshare_host_disconnect(host, 0) == PAGESHARE_HOST_OK && has_session(host, 0, PAGESHARE_HOST_STATE_GONE, 2, 0, 6));
    lend(host, 0, 1);
    CHECK(got.status == PAGESHARE_HOST_ERROR_NO_SESSION);
    hello(host, 2, names[0]);
    CHECK(is_welcome(names[0]) && got.resumed == 0);
    CHECK(has_session(host, 2, PAGESHARE_HOST_STATE_TALKING, 2, 0, 7));
    CHECK(pageshare_host_disconnect(host, 0) == PAGESHARE_HOST_ERROR_NO_SESSION);
    CHECK(pageshare_host_connect(host, names[3], &number) == PAGESHARE_HOST_OK && number == 0);
    CHECK(pageshare_host_disconnect(host, 0) == PAGESHARE_HOST_OK);
    CHECK(pageshare_host_disconnect(host, SESSIONS) == PAGESHARE_HOST_ERROR_NO_SESSION);
}

/* A new session's packet is at fault with this status. The session takes no more, and its number is free after the connection. */
static void check_fault(struct pageshare_host *host, const void *bytes, size_t length, uint32_t status) {
    uint32_t number = 77;
    CHECK(pageshare_host_connect(host, names[3], &number) == PAGESHARE_HOST_OK && number == 0);
    receive(host, number, bytes, length, 0);
    CHECK(got.status == status && got.reply_bytes == 0 && reply[0] == 0xaa);
    CHECK(has_session(host, number, PAGESHARE_HOST_STATE_BROKEN, 0, status, 0));
    hello(host, number, NULL);
    CHECK(got.status == PAGESHARE_HOST_ERROR_NO_SESSION);
    CHECK(pageshare_host_disconnect(host, number) == PAGESHARE_HOST_OK);
}

static void check_faults(struct pageshare_host *host) {
    const uint32_t unknown[2] = {9, 1}, version[2] = {PAGESHARE_HOST_HELLO, 1}, many[2] = {PAGESHARE_HOST_LEND, 129};
    const uint32_t longer[3] = {PAGESHARE_HOST_LEND, 1, 0}, early[2] = {PAGESHARE_HOST_LEND, 1};
    check_fault(host, unknown, 7, PAGESHARE_HOST_FAULT_HEAD);
    check_fault(host, unknown, 8, PAGESHARE_HOST_FAULT_KIND);
    check_fault(host, version, 8, PAGESHARE_HOST_FAULT_VERSION);
    check_fault(host, many, 8, PAGESHARE_HOST_FAULT_COUNT);
    check_fault(host, longer, 12, PAGESHARE_HOST_FAULT_LENGTH);
    check_fault(host, early, 8, PAGESHARE_HOST_FAULT_EARLY);
    lend(host, 2, QUOTA + 2);
    CHECK(got.status == PAGESHARE_HOST_FAULT_PAGES && has_session(host, 2, PAGESHARE_HOST_STATE_BROKEN, 2, PAGESHARE_HOST_FAULT_PAGES, 7));
    hello(host, 1, NULL);
    CHECK(got.status == PAGESHARE_HOST_FAULT_AGAIN && has_session(host, 1, PAGESHARE_HOST_STATE_BROKEN, 1, PAGESHARE_HOST_FAULT_AGAIN, 3));
    CHECK(counts(host, 2, 3, 2, 2));
}

/* ---- processes that end */

/* Session 2's process ends: its two slots are released in two calls, and the third one frees its number. */
static void check_ends(struct pageshare_host *host) {
    uint32_t frames[1] = {78};
    size_t count = 79;
    CHECK(pageshare_host_end(host, 2, frames, 0, &count) == PAGESHARE_HOST_ERROR_SHORT && frames[0] == 78 && count == 79);
    CHECK(pageshare_host_end(host, 0, frames, 1, &count) == PAGESHARE_HOST_ERROR_NO_SESSION && frames[0] == 78 && count == 79);
    uint32_t freed_frames = 0;
    for (int i = 0; i < 2; i++) {
        CHECK(pageshare_host_end(host, 2, frames, 1, &count) == PAGESHARE_HOST_OK && count == 1);
        freed_frames += frames[0] != PAGESHARE_HOST_NO_FRAME;
        CHECK(has_session(host, 2, PAGESHARE_HOST_STATE_ENDED, (uint32_t)(1 - i), 0, 7));
    }
    CHECK(freed_frames == 1);
    frames[0] = 78;
    CHECK(pageshare_host_end(host, 2, frames, 1, &count) == PAGESHARE_HOST_OK && count == 0 && frames[0] == 78);
    CHECK(pageshare_host_end(host, 2, frames, 1, &count) == PAGESHARE_HOST_ERROR_NO_SESSION);
    CHECK(counts(host, 1, 1, 1, 0));
    CHECK(pageshare_host_end(host, 1, frames, 1, &count) == PAGESHARE_HOST_OK && count == 1 && frames[0] < FRAMES);
    CHECK(counts(host, 1, 0, 0, 0) || counts(host, 0, 0, 0, 0));
    CHECK(pageshare_host_end(host, 1, frames, 1, &count) == PAGESHARE_HOST_OK && count == 0 && counts(host, 0, 0, 0, 0));
}

/* ---- a client that comes later */

enum { LATER_RECENT = 4, LATER_PAGES = 3 };

static uint8_t contents[LATER_PAGES][PAGE];

static void ask_one(struct pageshare_host *host, uint32_t session, uint64_t page, uint64_t fingerprint) {
    struct pageshare_host_ask ask = {.kind = PAGESHARE_HOST_ASK, .count = 1, .questions = {{page, fingerprint}}};
    receive(host, session, &ask, 24, 0);
}

/* Whether the host has seen a page of this content elsewhere. */
static bool is_seen(struct pageshare_host *host, uint32_t session, uint64_t page, const uint8_t *content) {
    ask_one(host, session, page, pageshare_host_fingerprint(7, content));
    CHECK(got.status == PAGESHARE_HOST_OK && got.reply_bytes == 9);
    return reply[8] == 1;
}

static void end_all(struct pageshare_host *host, uint32_t session) {
    size_t count = 1;
    while (count != 0)
        if (pageshare_host_end(host, session, freed, FREED, &count) != PAGESHARE_HOST_OK) break;
}

static void join(struct pageshare_host *host, uint32_t number) {
    uint32_t known = 77;
    CHECK(pageshare_host_connect(host, names[number], &known) == PAGESHARE_HOST_OK && known == number);
    hello(host, number, NULL);
    CHECK(got.status == PAGESHARE_HOST_OK);
}

/*
 * Client 0 lends three pages and asks nothing. The questions of client 1 push all others out. Client 2 comes then, and finds the lent
 * pages; it finds them no more when client 0 has ended. Its own questions about the same pages don't count.
 */
static void check_later(void *region) {
    struct pageshare_host host = PAGESHARE_HOST_NONE;
    struct pageshare_host_shape small = shape;
    small.recent = LATER_RECENT;
    for (size_t i = 0; i < LATER_PAGES; i++) memset(contents[i], (int)(i + 40), PAGE);
    CHECK(pageshare_host_make(&host, &small, region, FRAMES * PAGE) == PAGESHARE_HOST_OK);
    for (uint32_t i = 0; i < SESSIONS; i++) join(&host, i);
    memcpy(pages, contents, sizeof contents);
    lend(&host, 0, LATER_PAGES);
    for (uint64_t i = 0; i < 8 * LATER_RECENT; i++) ask_one(&host, 1, i, 1000 + i);
    for (size_t i = 0; i < LATER_PAGES; i++) CHECK(is_seen(&host, 2, i, contents[i]));
    memset(pages[0], 99, PAGE);
    CHECK(!is_seen(&host, 2, 50, pages[0]));
    end_all(&host, 0);
    for (size_t i = 0; i < LATER_PAGES; i++) CHECK(!is_seen(&host, 2, i, contents[i]));
    /* the questions of client 2 count for client 1 as long as it is there */
    CHECK(is_seen(&host, 1, 0, contents[2]));
    end_all(&host, 1);
    end_all(&host, 2);
    join(&host, 0);
    join(&host, 1);
    for (size_t i = 0; i < LATER_PAGES; i++) CHECK(!is_seen(&host, 1, 60 + i, contents[i]));
    CHECK(pageshare_host_free(&host) == PAGESHARE_HOST_OK);
}

/* ---- a reply that gets lost */

/* Client 0 has got one of two replies to its lends when its connection ends: the slot of the other is released. */
static void check_lost(void *region) {
    struct pageshare_host host = PAGESHARE_HOST_NONE;
    CHECK(pageshare_host_make(&host, &shape, region, FRAMES * PAGE) == PAGESHARE_HOST_OK);
    join(&host, 0);
    memset(pages[0], 1, PAGE);
    memset(pages[1], 2, PAGE);
    lend(&host, 0, 2);
    memset(pages[0], 3, PAGE);
    lend(&host, 0, 1);
    uint32_t frame = loan(0).frame;
    CHECK(counts(&host, 1, 3, 3, 0) && pageshare_host_disconnect(&host, 0) == PAGESHARE_HOST_OK);
    uint32_t number = 77;
    CHECK(pageshare_host_connect(&host, names[1], &number) == PAGESHARE_HOST_OK && number == 1);
    take_up(&host, 1, names[0], 1);
    CHECK(got.status == PAGESHARE_HOST_OK && got.resumed == 0 && got.freed == 1 && freed[0] == frame && freed[1] == 0xbbbbbbbb);
    CHECK(counts(&host, 1, 2, 2, 0) && has_session(&host, 1, PAGESHARE_HOST_STATE_TALKING, 2, 0, 4));
    /* the client's number counts from then on: nothing more is released, and the next reply is the second one */
    lend(&host, 1, 1);
    CHECK(counts(&host, 1, 3, 3, 0) && pageshare_host_disconnect(&host, 1) == PAGESHARE_HOST_OK);
    CHECK(pageshare_host_connect(&host, names[1], &number) == PAGESHARE_HOST_OK && number == 0);
    take_up(&host, 0, names[0], 2);
    CHECK(is_welcome(names[0]) && got.resumed == 1 && counts(&host, 1, 3, 3, 0));
    CHECK(pageshare_host_free(&host) == PAGESHARE_HOST_OK);
}

/* ---- several machines */

enum { MACHINES = 3, ROUNDS = 4 };

/* Machine m has the frames from m times the frames of one machine on: each page that is lent has its bytes in the region there. */
static void check_machines(void) {
    static _Alignas(PAGE) uint8_t region[MACHINES * FRAMES][PAGE];
    struct pageshare_host host = PAGESHARE_HOST_NONE;
    struct pageshare_host_shape larger = shape;
    uint32_t lent_by[MACHINES] = {0};
    larger.machines = MACHINES;
    larger.quota = 100;
    CHECK(pageshare_host_make(&host, &larger, region, sizeof region) == PAGESHARE_HOST_OK);
    join(&host, 0);
    for (int round = 0; round < ROUNDS; round++) {
        for (size_t i = 0; i <= QUOTA; i++) memset(pages[i], (int)(1 + i) + (QUOTA + 1) * round, PAGE);
        lend(&host, 0, QUOTA + 1);
        for (size_t i = 0; i <= QUOTA; i++) {
            if (loan(i).frame == PAGESHARE_HOST_NO_FRAME) continue;
            CHECK(loan(i).frame < MACHINES * FRAMES && memcmp(region[loan(i).frame], pages[i], PAGE) == 0);
            CHECK(loan(i).slot >> 32 == loan(i).frame / FRAMES);
            lent_by[loan(i).frame / FRAMES]++;
        }
    }
    for (size_t m = 0; m < MACHINES; m++) CHECK(lent_by[m] > 0);
    CHECK(pageshare_host_free(&host) == PAGESHARE_HOST_OK);
}

/* ---- what packets and replies say */

/* Whether a packet is read so. */
static bool is_read(const void *bytes, size_t length, uint32_t kind, uint32_t count) {
    struct pageshare_host_packet packet = pageshare_host_read(bytes, length);
    return packet.kind == kind && packet.count == count;
}

static void check_read(void) {
    struct pageshare_host_hello greeting = {.kind = PAGESHARE_HOST_HELLO, .version = PAGESHARE_HOST_VERSION, .loans = 3};
    struct pageshare_host_ask ask = {.kind = PAGESHARE_HOST_ASK, .count = 2};
    struct pageshare_host_lend lending = {.kind = PAGESHARE_HOST_LEND, .count = 128};
    struct pageshare_host_release releasing = {.kind = PAGESHARE_HOST_RELEASE, .count = 1};
    memcpy(greeting.name, names[0], sizeof greeting.name);
    CHECK(is_read(&greeting, 8, PAGESHARE_HOST_HELLO, 0) && is_read(&greeting, sizeof greeting, PAGESHARE_HOST_HELLO, 0));
    CHECK(is_read(&ask, 8 + 2 * 16, PAGESHARE_HOST_ASK, 2) && is_read(&ask, 8 + 16, 0, 0));
    CHECK(is_read(&lending, 8, PAGESHARE_HOST_LEND, 128) && is_read(&releasing, 16, PAGESHARE_HOST_RELEASE, 1));
    lending.count++;
    greeting.version++;
    CHECK(is_read(&lending, 8, 0, 0) && is_read(&greeting, sizeof greeting, 0, 0) && is_read(&ask, 7, 0, 0));
}

/* Whether a packet of session 0, with two pages in the buffer, came to this where so many may be lent. */
static bool is_served_of(struct pageshare_host *host, const void *bytes, size_t length, uint32_t most, struct pageshare_host_served due) {
    const struct pageshare_host_allowance may = {.most = most, .beside = PAGESHARE_HOST_NO_FRAME};
    memset(reply, 0xaa, sizeof reply);
    memset(freed, 0xbb, sizeof freed);
    struct pageshare_host_served served =
        pageshare_host_serve(host, 0, bytes, length, (const uint8_t(*)[PAGE])pages, 2, &may, reply, sizeof reply, freed, FREED);
    return memcmp(&served, &due, sizeof due) == 0;
}

static bool is_served(struct pageshare_host *host, const void *bytes, size_t length, struct pageshare_host_served due) {
    return is_served_of(host, bytes, length, UINT32_MAX, due);
}

/* Whether what session 0 last got in this frame was taken back, and it came to this. */
static bool is_taken_back(struct pageshare_host *host, uint32_t frame, struct pageshare_host_served due) {
    memset(reply, 0xaa, sizeof reply);
    memset(freed, 0xbb, sizeof freed);
    struct pageshare_host_served served = pageshare_host_take_back(host, 0, &frame, 1, reply, sizeof reply, freed, FREED);
    return memcmp(&served, &due, sizeof due) == 0;
}

/* A page that is lent and one that isn't, since the session may have one slot. */
static void check_served(void *region) {
    struct pageshare_host host = PAGESHARE_HOST_NONE;
    struct pageshare_host_shape small = shape;
    const uint32_t none = PAGESHARE_HOST_NO_FRAME, greeting[2] = {PAGESHARE_HOST_HELLO, PAGESHARE_HOST_VERSION};
    struct pageshare_host_ask ask = {.kind = PAGESHARE_HOST_ASK, .count = 2, .questions = {{1, 50}, {2, 50}}};
    struct pageshare_host_lend lending = {.kind = PAGESHARE_HOST_LEND, .count = 2};
    struct pageshare_host_release releasing = {.kind = PAGESHARE_HOST_RELEASE, .count = 2};
    uint32_t number = 77;
    small.quota = 1;
    CHECK(is_served(&host, greeting, 8, (struct pageshare_host_served){.status = PAGESHARE_HOST_ERROR_NO_HOST, .resumed = none}));
    CHECK(pageshare_host_make(&host, &small, region, FRAMES * PAGE) == PAGESHARE_HOST_OK);
    CHECK(is_served(&host, greeting, 8, (struct pageshare_host_served){.status = PAGESHARE_HOST_ERROR_NO_SESSION, .resumed = none}));
    CHECK(is_taken_back(&host, 0, (struct pageshare_host_served){.status = PAGESHARE_HOST_ERROR_NO_SESSION, .resumed = none}));
    CHECK(pageshare_host_connect(&host, names[0], &number) == PAGESHARE_HOST_OK && number == 0);
    CHECK(is_served(&host, greeting, 8, (struct pageshare_host_served){0, 40, 0, none, PAGESHARE_HOST_WELCOME, 0, 0}));
    CHECK(is_served(&host, &ask, 8 + 2 * 16, (struct pageshare_host_served){0, 10, 0, none, PAGESHARE_HOST_SEEN, 2, 0}));
    memset(pages[0], 1, PAGE);
    memset(pages[1], 2, PAGE);
    CHECK(is_served(&host, &lending, 8, (struct pageshare_host_served){0, 40, 0, none, PAGESHARE_HOST_LOANS, 0, 2}));
    uint32_t frame = freed[0];
    CHECK(frame < FRAMES && frame == loan(0).frame && freed[1] == none && loan(1).frame == none && freed[2] == 0xbbbbbbbb);
    const struct pageshare_host_served two = {0, 40, 0, none, PAGESHARE_HOST_LOANS, 0, 2};
    CHECK(is_taken_back(&host, FRAMES, two) && freed[0] == frame && loan(0).frame == frame);
    CHECK(is_taken_back(&host, frame, two) && freed[0] == none && loan(0).frame == none && loan(0).sharers == 0 && loan(0).slot == 0);
    lending.count = 3;
    CHECK(is_served_of(&host, &lending, 8, 0, (struct pageshare_host_served){0, 56, 0, none, PAGESHARE_HOST_LOANS, 0, 3}));
    CHECK(freed[0] == none && freed[2] == none && loan(2).frame == none && loan(2).slot == 0 && freed[3] == 0xbbbbbbbb);
    CHECK(is_served_of(&host, &lending, 8, 1, (struct pageshare_host_served){0, 56, 0, none, PAGESHARE_HOST_LOANS, 0, 3}));
    CHECK(freed[0] == loan(0).frame && freed[0] < FRAMES && freed[1] == none && freed[2] == none);
    frame = freed[0];
    releasing.slots[0] = loan(0).slot;
    releasing.slots[1] = 99;
    CHECK(is_served(&host, &releasing, 24, (struct pageshare_host_served){0, 0, 2, none, 0, 0, 0}));
    CHECK(freed[0] == frame && freed[1] == none && freed[2] == 0xbbbbbbbb && reply[0] == 0xaa);
    CHECK(is_served(&host, greeting, 8, (struct pageshare_host_served){.status = PAGESHARE_HOST_FAULT_AGAIN, .resumed = none}));
    struct pageshare_host_served tight = pageshare_host_serve(&host, 0, (const uint8_t *)greeting, 8, (const uint8_t(*)[PAGE])pages, 2, &(const struct pageshare_host_allowance){2, PAGESHARE_HOST_NO_FRAME}, reply, sizeof reply, freed, FREED - 1);
    CHECK(tight.status == PAGESHARE_HOST_ERROR_SHORT && tight.kind == 0);
    tight = pageshare_host_take_back(&host, 0, &none, 1, reply, sizeof reply - 1, freed, FREED);
    CHECK(tight.status == PAGESHARE_HOST_ERROR_SHORT && tight.kind == 0);
    CHECK(pageshare_host_free(&host) == PAGESHARE_HOST_OK);
}

/* ---- processes with two sessions, and sessions without slots */

static struct pageshare_host_served serve_beside(struct pageshare_host *host, uint32_t session, const void *bytes, size_t length, uint32_t beside) {
    const struct pageshare_host_allowance may = {.most = QUOTA, .beside = beside};
    return pageshare_host_serve(host, session, bytes, length, (const uint8_t(*)[PAGE])pages, QUOTA, &may, reply, sizeof reply, freed, FREED);
}

/* Session 1 is of the process of session 0, and may have what that leaves of the quota. Session 2 takes up session 0, which is connected. */
static void check_processes(void *region) {
    struct pageshare_host host = PAGESHARE_HOST_NONE;
    const uint32_t none = PAGESHARE_HOST_NO_FRAME;
    struct pageshare_host_lend lending = {.kind = PAGESHARE_HOST_LEND, .count = QUOTA};
    struct pageshare_host_hello greeting = {.kind = PAGESHARE_HOST_HELLO, .version = PAGESHARE_HOST_VERSION, .loans = 1};
    uint32_t number = 77;
    memcpy(greeting.name, names[0], sizeof greeting.name);
    CHECK(pageshare_host_end_empty(&host, 0) == PAGESHARE_HOST_ERROR_NO_HOST);
    CHECK(pageshare_host_make(&host, &shape, region, FRAMES * PAGE) == PAGESHARE_HOST_OK);
    CHECK(pageshare_host_end_empty(&host, 0) == PAGESHARE_HOST_ERROR_NO_SESSION);
    join(&host, 0);
    join(&host, 1);
    lend(&host, 0, QUOTA - 1);
    CHECK(serve_beside(&host, 1, &lending, 8, 0).loans == QUOTA && freed[0] < FRAMES && freed[1] == none);
    CHECK(pageshare_host_end_empty(&host, 1) == PAGESHARE_HOST_OK && has_session(&host, 1, PAGESHARE_HOST_STATE_TALKING, 1, 0, 2));
    for (int is_beside = 0; is_beside < 2; is_beside++) {
        CHECK(pageshare_host_connect(&host, names[2], &number) == PAGESHARE_HOST_OK && number == 2);
        struct pageshare_host_served served = serve_beside(&host, 2, &greeting, sizeof greeting, is_beside ? 0 : none);
        CHECK(served.kind == PAGESHARE_HOST_WELCOME && served.resumed == (is_beside ? 0 : none));
        if (!is_beside) CHECK(pageshare_host_end_empty(&host, 2) == PAGESHARE_HOST_ERROR_NO_SESSION);
    }
    CHECK(has_session(&host, 2, PAGESHARE_HOST_STATE_TALKING, QUOTA - 1, 0, 3));
    CHECK(pageshare_host_end_empty(&host, 0) == PAGESHARE_HOST_ERROR_NO_SESSION);
    CHECK(pageshare_host_free(&host) == PAGESHARE_HOST_OK);
}

/* ---- fingerprints */

static uint64_t drawn(uint64_t *state) {
    *state = *state * 6364136223846793005u + 1442695040888963407u;
    return *state >> 11 ^ *state << 21;
}

/* The library and window/ compute the same; the two worked values are those of FORMATS. */
static void check_fingerprints(void) {
    static uint64_t words[PAGE / sizeof(uint64_t)];
    const uint8_t *page = (const uint8_t *)words;
    uint64_t state = 1;
    CHECK(fingerprint_of(0, page) == 0xbf49b19d476944d3u && pageshare_host_fingerprint(0, page) == 0xbf49b19d476944d3u);
    for (size_t i = 0; i < PAGE; i++) ((uint8_t *)words)[i] = (uint8_t)(7 * i + i / 256);
    CHECK(fingerprint_of(7, page) == 0x373bf3588fc5d6f6u && pageshare_host_fingerprint(7, page) == 0x373bf3588fc5d6f6u);
    for (size_t round = 0; round < 1000; round++) {
        for (size_t i = 0; i < PAGE / sizeof(uint64_t); i++) words[i] = drawn(&state);
        uint32_t salt = (uint32_t)drawn(&state);
        CHECK(fingerprint_of(salt, page) == pageshare_host_fingerprint(salt, page));
    }
}

int main(void) {
    struct pageshare_host host = PAGESHARE_HOST_NONE;
    uint64_t slots[5];
    uint8_t *region = aligned_alloc(PAGE, (size_t)FRAMES * PAGE);
    CHECK(region != NULL);
    if (region == NULL) return 1;
    memset(region, 0, (size_t)FRAMES * PAGE);
    check_shapes();
    check_begun(&host, region);
    check_hello(&host);
    check_ask(&host);
    check_lends(&host, region, slots);
    check_releases(&host, slots);
    check_resumed(&host);
    check_faults(&host);
    check_ends(&host);
    check_fingerprints();
    CHECK(pageshare_host_free(&host) == PAGESHARE_HOST_OK);
    check_none(&host);
    check_later(region);
    check_lost(region);
    check_read();
    check_served(region);
    check_processes(region);
    check_machines();
    free(region);
    if (failures == 0) puts("ok");
    return failures == 0 ? 0 : 1;
}
