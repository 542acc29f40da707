/*
 * Random calls and packets over the library's C entry (pageshare_host.h), beside a plain list of what is lent to whom. After each call:
 * every page that is lent has a frame with its bytes, no freed frame is one of them, and what one session does takes no slot of
 * another. For libFuzzer; with -DPLAIN_LOOP it draws the bytes itself, for FUZZ_SECONDS.
 */
#include "pageshare_host.h"
#include <stdio.h>
#include <stdlib.h>
#include <string.h>
#include <time.h>

enum { PAGE = 4096, MACHINES = 2, FRAMES = 24, SLOTS = 40, SESSIONS = 6, LOANS_MOST = MACHINES * SLOTS + 1, BUFFER = 128, ROOM = 70000 };

struct loan {
    uint64_t slot;
    uint32_t session, frame;
    uint8_t content;
    bool is_last; /* of the last reply to a lend of its session */
};

static _Alignas(PAGE) uint8_t region[MACHINES * FRAMES][PAGE];
static uint8_t pages[BUFFER][PAGE];
static struct loan loans[LOANS_MOST];
static size_t loan_count;
static uint64_t replies[SESSIONS]; /* to lends, as both sides count them */
static size_t ending[SESSIONS];    /* slots that are left of a session whose process has ended */
static uint8_t names[SESSIONS][PAGESHARE_HOST_NAME_BYTES];
static uint8_t next_name;

int LLVMFuzzerTestOneInput(const uint8_t *data, size_t length);

static void must(bool is_so, const char *what) {
    if (is_so) return;
    fprintf(stderr, "fuzz: %s\n", what);
    __builtin_trap();
}

static void check_all(void) {
    for (size_t i = 0; i < loan_count; i++) {
        const uint8_t *frame = region[loans[i].frame];
        must(frame[0] == loans[i].content && memcmp(frame, frame + 1, PAGE - 1) == 0, "a lent page's frame has other bytes");
    }
}

static void check_freed(const uint32_t *freed, size_t count) {
    for (size_t i = 0; i < count; i++) {
        must(freed[i] == PAGESHARE_HOST_NO_FRAME || freed[i] < MACHINES * FRAMES, "a freed frame that isn't there");
        for (size_t at = 0; at < loan_count; at++) must(loans[at].frame != freed[i], "a freed frame that a page has");
    }
}

/* A session's process has ended, and `released` of its slots were released. (Nothing says which of them are first.) */
static void forget(uint32_t session, size_t released) {
    for (size_t i = loan_count; i-- > 0;)
        if (loans[i].session == session) loans[i] = loans[--loan_count], ending[session]++;
    must(released <= ending[session], "more slots released than there were");
    ending[session] -= released;
}

/* How many slots a session has. */
static size_t slots_of(uint32_t session) {
    size_t sum = ending[session];
    for (size_t i = 0; i < loan_count; i++) sum += loans[i].session == session;
    return sum;
}

static size_t slots_ending(void) {
    size_t sum = 0;
    for (size_t i = 0; i < SESSIONS; i++) sum += ending[i];
    return sum;
}

static void note_loans(uint32_t session, const uint8_t *reply) {
    struct pageshare_host_loans answer;
    memcpy(&answer, reply, 8);
    memcpy(answer.loans, reply + 8, answer.count * sizeof *answer.loans);
    replies[session]++;
    for (size_t at = 0; at < loan_count; at++) loans[at].is_last = loans[at].is_last && loans[at].session != session;
    for (uint32_t i = 0; i < answer.count; i++) {
        const struct pageshare_host_lent *lent = &answer.loans[i];
        if (lent->frame == PAGESHARE_HOST_NO_FRAME) continue;
        must(lent->frame < MACHINES * FRAMES && loan_count < LOANS_MOST, "a loan that can't be");
        for (size_t at = 0; at < loan_count; at++) must(loans[at].slot != lent->slot, "a slot that was lent already");
        loans[loan_count++] = (struct loan){lent->slot, session, lent->frame, pages[i][0], true};
    }
}

static void note_releases(uint32_t session, const uint8_t *bytes, uint32_t count) {
    for (uint32_t i = 0; i < count; i++) {
        uint64_t slot;
        memcpy(&slot, bytes + 8 + 8 * i, sizeof slot);
        for (size_t at = loan_count; at-- > 0;)
            if (loans[at].slot == slot && loans[at].session == session) loans[at] = loans[--loan_count];
    }
}

/* A hello that may name a session, and how many replies came in it, or another number. */
static size_t make_hello(uint8_t *packet, uint8_t how, uint8_t count) {
    struct pageshare_host_hello hello = {.kind = PAGESHARE_HOST_HELLO, .version = PAGESHARE_HOST_VERSION};
    hello.loans = replies[count % SESSIONS] - (how >> 5) % 2;
    memcpy(hello.name, names[count % SESSIONS], sizeof hello.name);
    memcpy(packet, &hello, sizeof hello);
    return how & 16 ? sizeof hello : 8;
}

/* A packet of random bytes, at times with a good head, or with slots that are there. */
static size_t make_packet(uint8_t *packet, const uint8_t **data, size_t *left) {
    uint8_t how = (*data)[0], count = (*data)[1];
    size_t length = *left < (size_t)count * 16 + 8 ? *left : (size_t)count * 16 + 8;
    uint32_t head[2] = {how % 8, count % 160u};
    memcpy(packet, *data, length);
    if (how & 8) {
        memset(packet, 0, 8 + 16 * 160);
        memcpy(packet, head, sizeof head);
        if (length > 8) memcpy(packet + 8, *data, length - 8);
        length = head[0] == 2 ? 8 + 16u * head[1] : head[0] == 4 ? 8 + 8u * head[1] : 8;
        if (head[0] == 1) length = make_hello(packet, how, count);
        for (uint32_t i = 0; head[0] == 4 && i < head[1] && loan_count; i++)
            memcpy(packet + 8 + 8 * i, &loans[(i + how) % loan_count].slot, 8);
    }
    size_t used = *left < 4 ? *left : 4;
    *data += used;
    *left -= used;
    return length;
}

/* A session was taken up under another number. The slots of a reply that its client didn't get are released. */
static void note_resumed(uint32_t before, uint32_t session, const uint8_t *packet) {
    struct pageshare_host_hello hello;
    memcpy(&hello, packet, sizeof hello);
    for (size_t i = loan_count; i-- > 0;) {
        if (loans[i].session != before) continue;
        if (loans[i].is_last && hello.loans != replies[before]) loans[i] = loans[--loan_count];
        else loans[i].session = session, loans[i].is_last = false;
    }
    replies[session] = hello.loans;
    memcpy(names[session], names[before], sizeof names[session]);
}

/* What one page of a lend got is taken back, with what others of it got in the same frame. */
static void take_back(struct pageshare_host *host, uint32_t session, uint32_t count, uint8_t *reply, uint32_t *frames) {
    const uint32_t missing = frames[0];
    struct pageshare_host_served got = pageshare_host_take_back(host, session, &missing, 1, reply, PAGESHARE_HOST_MAX_MESSAGE, frames, PAGESHARE_HOST_MAX_PAGES);
    must(got.status == PAGESHARE_HOST_OK && got.loans == count, "what was lent can't be taken back");
    for (uint32_t i = 0; i < count; i++) must(frames[i] != missing || missing == PAGESHARE_HOST_NO_FRAME, "a frame that was taken back");
}

static void receive(struct pageshare_host *host, uint32_t session, const uint8_t *packet, size_t length, uint32_t buffer,
                    struct pageshare_host_allowance may, bool takes_back) {
    static uint8_t reply[PAGESHARE_HOST_MAX_MESSAGE];
    static uint32_t freed[PAGESHARE_HOST_MAX_PAGES];
    uint32_t head[2] = {0, 0};
    struct pageshare_host_packet says = pageshare_host_read(packet, length);
    struct pageshare_host_served got = pageshare_host_serve(host, session, packet, length, (const uint8_t(*)[PAGE])pages, buffer, &may,
                                                            reply, sizeof reply, freed, PAGESHARE_HOST_MAX_PAGES);
    if (got.status != PAGESHARE_HOST_OK) return;
    must(length >= 8 && got.reply_bytes <= sizeof reply && got.freed <= PAGESHARE_HOST_MAX_PAGES, "an answer out of range");
    memcpy(head, packet, sizeof head);
    must(says.kind == head[0] && (head[0] == PAGESHARE_HOST_HELLO || says.count == head[1]), "a packet that is read as another");
    must(got.loans == (head[0] == PAGESHARE_HOST_LEND ? head[1] : 0), "loans of other pages than those that were lent");
    for (uint32_t i = 0; i < got.loans; i++)
        must(freed[i] == PAGESHARE_HOST_NO_FRAME || (freed[i] < MACHINES * FRAMES && i < may.most), "a loan's frame that isn't there, or more than may be");
    must(got.resumed == PAGESHARE_HOST_NO_FRAME || got.resumed == may.beside, "a session that may not be taken up");
    if (got.loans > 0 && takes_back) take_back(host, session, got.loans, reply, freed);
    if (head[0] == PAGESHARE_HOST_HELLO && got.resumed == PAGESHARE_HOST_NO_FRAME) replies[session] = 0;
    if (got.resumed != PAGESHARE_HOST_NO_FRAME) note_resumed(got.resumed, session, packet);
    if (head[0] == PAGESHARE_HOST_RELEASE) note_releases(session, packet, head[1]);
    check_freed(freed, got.freed);
    if (head[0] == PAGESHARE_HOST_LEND) note_loans(session, reply);
}

/* One call, made of a few bytes. */
static void step(struct pageshare_host *host, const uint8_t **data, size_t *left) {
    static uint8_t packet[ROOM];
    uint8_t what = (*data)[0], more = (*data)[1];
    uint32_t session = more % SESSIONS, freed[8];
    size_t count = 0;
    *data += 2;
    *left -= 2;
    switch (what % 8) {
    case 0: {
        uint8_t name[PAGESHARE_HOST_NAME_BYTES] = {++next_name, more};
        if (pageshare_host_connect(host, name, &session) == PAGESHARE_HOST_OK) {
            must(session < SESSIONS, "a session's number");
            memcpy(names[session], name, sizeof name);
        }
        break;
    }
    case 1:
        pageshare_host_disconnect(host, session);
        if (what & 8 && pageshare_host_end_empty(host, session) == PAGESHARE_HOST_ERROR_NO_SESSION)
            must(slots_of(session) == 0, "a session with slots that has ended");
        break;
    case 2:
        if (pageshare_host_end(host, session, freed, 1 + what / 8 % 8, &count) != PAGESHARE_HOST_OK) break;
        forget(session, count);
        check_freed(freed, count);
        break;
    case 3: memset(pages[more % BUFFER], what / 8 % 16, PAGE); break;
    default: {
        if (*left < 2) return;
        const uint32_t wanted = (*data)[1] % SESSIONS, beside = what & 32 ? wanted : PAGESHARE_HOST_NO_FRAME;
        size_t length = make_packet(packet, data, left);
        const uint32_t buffer = what & 8 ? BUFFER : more % (BUFFER + 1);
        receive(host, session, packet, length, buffer, (struct pageshare_host_allowance){what & 16 ? UINT32_MAX : more / 2, beside}, what >= 192);
    }
    }
}

int LLVMFuzzerTestOneInput(const uint8_t *data, size_t length) {
    struct pageshare_host host = PAGESHARE_HOST_NONE;
    struct pageshare_host_shape shape = {.machines = MACHINES, .slots = SLOTS, .frames = FRAMES, .sessions = SESSIONS, .recent = 64,
                                         .quota = 60, .salt = 5, .fingerprints = 6, .seed = 7};
    struct pageshare_host_totals totals;
    if (pageshare_host_make(&host, &shape, region, sizeof region) != PAGESHARE_HOST_OK) return 0;
    loan_count = 0;
    next_name = 0;
    memset(names, 0, sizeof names);
    memset(replies, 0, sizeof replies);
    memset(ending, 0, sizeof ending);
    for (uint32_t i = 0; i < BUFFER; i++) memset(pages[i], (int)(i % 16), PAGE);
    while (length >= 2) {
        step(&host, &data, &length);
        check_all();
        must(pageshare_host_report(&host, &totals) == PAGESHARE_HOST_OK && totals.slots == loan_count + slots_ending(), "slots that nobody knows of, or that are lost");
    }
    pageshare_host_free(&host);
    return 0;
}

#ifdef PLAIN_LOOP
int main(void) {
    static uint8_t drawn[4096];
    const char *seconds = getenv("FUZZ_SECONDS");
    time_t end = time(NULL) + (seconds ? atol(seconds) : 10);
    uint64_t seed = 1, runs = 0;
    for (; time(NULL) < end; runs++) {
        for (size_t i = 0; i < sizeof drawn; i++) seed = seed * 6364136223846793005u + 1442695040888963407u, drawn[i] = (uint8_t)(seed >> 56);
        LLVMFuzzerTestOneInput(drawn, sizeof drawn / (1 + runs % 8));
    }
    printf("runs %llu\n", (unsigned long long)runs);
    return 0;
}
#endif
