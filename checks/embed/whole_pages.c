/* Pages stored, lent and taken back whole, each answer with its five numbers. Prints "ok", or what failed. */
#include "check.h"
#include "pageshare.h"
#include <stdio.h>
#include <string.h>

/* Two contents that begin alike and end apart. */
static uint8_t ones[PAGESHARE_PAGE_BYTES], twos[PAGESHARE_PAGE_BYTES];

/* Whether these are the answer's verdict and count, and it names this frame and this freed one. */
static bool is(struct pageshare_answer a, enum pageshare_verdict verdict, uint32_t count, uint32_t frame, uint32_t freed) {
    return a.status == PAGESHARE_OK && a.verdict == (uint32_t)verdict && a.count == count && a.frame == frame && a.freed == freed;
}

static bool refused(struct pageshare_answer a, enum pageshare_status status) {
    return a.status == (uint32_t)status && a.verdict == PAGESHARE_VERDICT_NONE && a.count == 0 && a.frame == PAGESHARE_NO_FRAME &&
           a.freed == PAGESHARE_NO_FRAME;
}

static uint32_t frame_of(struct pageshare *m, uint32_t guest, uint32_t ppn) {
    uint32_t mpn = PAGESHARE_NO_FRAME;
    pageshare_frame(m, guest, ppn, &mpn);
    return mpn;
}

static bool reads(struct pageshare *m, uint32_t guest, uint32_t ppn, const uint8_t *wanted) {
    uint8_t page[PAGESHARE_PAGE_BYTES];
    return pageshare_read(m, guest, ppn, page) == PAGESHARE_OK && memcmp(page, wanted, sizeof page) == 0;
}

static bool counts(struct pageshare *m, uint32_t entries, uint32_t mapped, uint32_t shared, uint32_t frames) {
    struct pageshare_totals t;
    return pageshare_report(m, &t) == PAGESHARE_OK && t.entries == entries && t.mapped == mapped && t.shared == shared && t.frames == frames;
}

/* Guest 0 has two pages, guest 1 two; equal pages are lent one after the other and taken back. */
static void check_lends(struct pageshare *m) {
    uint8_t room[PAGESHARE_PAGE_BYTES];
    struct pageshare_answer first = pageshare_lend(m, 0, 0, ones);
    uint32_t shared = first.frame;
    CHECK(shared < 4 && is(first, PAGESHARE_VERDICT_HINTED, 0, shared, PAGESHARE_NO_FRAME) && shared == frame_of(m, 0, 0));
    /* (no frame is free since that wasn't free before) */
    CHECK(is(pageshare_lend(m, 1, 0, ones), PAGESHARE_VERDICT_PAIRED, 0, shared, PAGESHARE_NO_FRAME));
    CHECK(frame_of(m, 1, 0) == shared && counts(m, 130, 2, 2, 1));
    CHECK(is(pageshare_lend(m, 1, 1, ones), PAGESHARE_VERDICT_JOINED, 3, shared, PAGESHARE_NO_FRAME));
    CHECK(counts(m, 195, 3, 3, 1) && reads(m, 1, 1, ones));
    /* (a page of another content gets a frame of its own, which it loses when it comes to be equal) */
    struct pageshare_answer other = pageshare_lend(m, 0, 1, twos);
    CHECK(is(other, PAGESHARE_VERDICT_HINTED, 0, other.frame, PAGESHARE_NO_FRAME) && other.frame != shared && reads(m, 0, 1, twos));
    CHECK(is(pageshare_lend(m, 0, 1, ones), PAGESHARE_VERDICT_JOINED, 4, shared, other.frame) && counts(m, 325, 4, 4, 1));
    memset(room, 0xee, sizeof room);
    CHECK(is(pageshare_take_back(m, 1, 0, room), PAGESHARE_VERDICT_RELEASED, 0, PAGESHARE_NO_FRAME, PAGESHARE_NO_FRAME));
    CHECK(memcmp(room, ones, sizeof room) == 0 && counts(m, 326, 3, 3, 1));
    memset(room, 0xee, sizeof room);
    CHECK(is(pageshare_take_back(m, 1, 0, room), PAGESHARE_VERDICT_UNMAPPED, 0, PAGESHARE_NO_FRAME, PAGESHARE_NO_FRAME));
    CHECK(is(pageshare_take_back(m, 1, 9, room), PAGESHARE_VERDICT_NO_PAGE, 0, PAGESHARE_NO_FRAME, PAGESHARE_NO_FRAME));
    CHECK(room[0] == 0xee && room[4095] == 0xee);
    CHECK(pageshare_take_back(m, 0, 0, room).freed == PAGESHARE_NO_FRAME && pageshare_take_back(m, 0, 1, room).freed == PAGESHARE_NO_FRAME);
    CHECK(is(pageshare_take_back(m, 1, 1, room), PAGESHARE_VERDICT_RELEASED, 1, PAGESHARE_NO_FRAME, shared));
    CHECK(memcmp(room, ones, sizeof room) == 0 && counts(m, 331, 0, 0, 0));
}

/* Stores of whole pages, and the frames that single requests name. */
static void check_stores(struct pageshare *m) {
    struct pageshare_answer mapped = pageshare_store_page(m, 0, 0, twos);
    CHECK(is(mapped, PAGESHARE_VERDICT_MAPPED, 0, frame_of(m, 0, 0), PAGESHARE_NO_FRAME) && reads(m, 0, 0, twos));
    CHECK(is(pageshare_store_page(m, 0, 0, ones), PAGESHARE_VERDICT_STORED, 0, mapped.frame, PAGESHARE_NO_FRAME) && reads(m, 0, 0, ones));
    CHECK(is(pageshare_propose(m, 0, 0), PAGESHARE_VERDICT_HINTED, 0, mapped.frame, PAGESHARE_NO_FRAME));
    struct pageshare_answer beside = pageshare_store_page(m, 1, 0, ones);
    CHECK(is(pageshare_propose(m, 1, 0), PAGESHARE_VERDICT_PAIRED, 0, mapped.frame, beside.frame));
    struct pageshare_answer copied = pageshare_store_page(m, 1, 0, twos);
    CHECK(is(copied, PAGESHARE_VERDICT_COPIED, 0, frame_of(m, 1, 0), PAGESHARE_NO_FRAME) && copied.frame != mapped.frame);
    CHECK(reads(m, 0, 0, ones) && reads(m, 1, 0, twos));
    CHECK(is(pageshare_store(m, 0, 0, 0, twos, 1), PAGESHARE_VERDICT_TAKEN, 0, mapped.frame, PAGESHARE_NO_FRAME));
    CHECK(is(pageshare_release(m, 0, 0), PAGESHARE_VERDICT_RELEASED, 1, PAGESHARE_NO_FRAME, mapped.frame));
    CHECK(is(pageshare_store_page(m, 0, 9, ones), PAGESHARE_VERDICT_NO_PAGE, 0, PAGESHARE_NO_FRAME, PAGESHARE_NO_FRAME));
    CHECK(is(pageshare_release(m, 1, 0), PAGESHARE_VERDICT_RELEASED, 1, PAGESHARE_NO_FRAME, copied.frame) && counts(m, 656, 0, 0, 0));
}

/* A full machine takes no page that needs a frame, be it equal to a shared one; a lend is proposed by its own salt alone. */
static void check_full_and_salted(void) {
    const uint32_t pages[] = {2, 1}, salts[] = {0, 5};
    struct pageshare m = PAGESHARE_NONE;
    CHECK(pageshare_make(&m, 2, pages, 2, salts, 2) == PAGESHARE_OK);
    CHECK(pageshare_lend(&m, 0, 0, ones).verdict == PAGESHARE_VERDICT_HINTED && pageshare_lend(&m, 1, 0, ones).verdict == PAGESHARE_VERDICT_HINTED);
    CHECK(is(pageshare_lend(&m, 0, 1, ones), PAGESHARE_VERDICT_NO_FRAME, 0, PAGESHARE_NO_FRAME, PAGESHARE_NO_FRAME) && counts(&m, 194, 2, 0, 2));
    CHECK(is(pageshare_store_page(&m, 0, 1, ones), PAGESHARE_VERDICT_NO_FRAME, 0, PAGESHARE_NO_FRAME, PAGESHARE_NO_FRAME) && counts(&m, 258, 2, 0, 2));
    CHECK(refused(pageshare_lend(&m, 2, 0, ones), PAGESHARE_ERROR_NO_GUEST) && refused(pageshare_store_page(&m, 256, 0, ones), PAGESHARE_ERROR_NO_GUEST));
    CHECK(refused(pageshare_take_back(&m, 2, 0, twos), PAGESHARE_ERROR_NO_GUEST) && counts(&m, 258, 2, 0, 2) && twos[4095] == 2);
    CHECK(pageshare_free(&m) == PAGESHARE_OK);
    CHECK(refused(pageshare_lend(&m, 0, 0, ones), PAGESHARE_ERROR_NO_MACHINE) && refused(pageshare_store_page(&m, 0, 0, ones), PAGESHARE_ERROR_NO_MACHINE));
    CHECK(refused(pageshare_take_back(&m, 0, 0, twos), PAGESHARE_ERROR_NO_MACHINE) && twos[4095] == 2);
}

int main(void) {
    const uint32_t pages[] = {2, 2}, salts[] = {0, 0};
    struct pageshare machine = PAGESHARE_NONE;
    memset(ones, 1, sizeof ones);
    memset(twos, 1, sizeof twos);
    twos[4095] = 2;
    CHECK(pageshare_make(&machine, 4, pages, 2, salts, 2) == PAGESHARE_OK);
    check_lends(&machine);
    check_stores(&machine);
    CHECK(pageshare_free(&machine) == PAGESHARE_OK);
    check_full_and_salted();
    if (failures == 0) puts("ok");
    return failures == 0 ? 0 : 1;
}
