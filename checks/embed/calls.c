/* Each call of the C library on its happy path, and each status where it is due. Prints "ok", or what failed. */
#include "check.h"
#include "pageshare.h"
#include <stdio.h>
#include <string.h>

static const uint32_t PAGES[] = {2, 1}, SALTS[] = {0, 0};
static const uint8_t LETTER[] = {0x41};

static bool is(struct pageshare_answer answer, uint32_t status, uint32_t verdict, uint32_t count) {
    return answer.status == status && answer.verdict == verdict && answer.count == count;
}

static bool served(struct pageshare_answer answer, enum pageshare_verdict verdict, uint32_t count) {
    return is(answer, PAGESHARE_OK, (uint32_t)verdict, count);
}

static bool refused(struct pageshare_answer answer, enum pageshare_status status) {
    return is(answer, (uint32_t)status, PAGESHARE_VERDICT_NONE, 0);
}

static bool counts(struct pageshare_totals t, uint32_t entries, uint32_t mapped, uint32_t shared, uint32_t frames,
                   uint32_t reclaimed, uint32_t hints) {
    return t.entries == entries && t.mapped == mapped && t.shared == shared && t.frames == frames &&
           t.reclaimed == reclaimed && t.hints == hints;
}

/* The status of a machine that can't be made; the handle holds none afterwards. */
static uint32_t unmade(uint32_t frames, const uint32_t *pages, size_t guests, size_t salts_count) {
    struct pageshare machine = PAGESHARE_NONE;
    static const uint32_t salts[65];
    uint32_t status = pageshare_make(&machine, frames, pages, guests, salts, salts_count);
    CHECK(pageshare_free(&machine) == PAGESHARE_ERROR_NO_MACHINE);
    return status;
}

static void check_make(void) {
    static const uint32_t none[] = {0}, many[] = {1048576, 1};
    uint32_t full[65];
    for (size_t i = 0; i < 65; i++) full[i] = 1;
    CHECK(unmade(0, none, 1, 1) == PAGESHARE_ERROR_FRAMES);
    CHECK(unmade(1048577, PAGES, 2, 2) == PAGESHARE_ERROR_FRAMES);
    CHECK(unmade(3, PAGES, 0, 0) == PAGESHARE_ERROR_GUESTS);
    CHECK(unmade(3, full, 65, 65) == PAGESHARE_ERROR_GUESTS);
    CHECK(unmade(3, none, 1, 2) == PAGESHARE_ERROR_GUESTS);
    CHECK(unmade(3, none, 1, 1) == PAGESHARE_ERROR_PAGES);
    CHECK(unmade(3, many, 2, 2) == PAGESHARE_ERROR_PAGES);
    struct pageshare machine = PAGESHARE_NONE;
    struct pageshare_totals totals;
    CHECK(pageshare_make(&machine, 1, full, 64, full, 64) == PAGESHARE_OK);
    CHECK(pageshare_make(&machine, 0, full, 64, full, 64) == PAGESHARE_ERROR_IN_USE);
    CHECK(pageshare_report(&machine, &totals) == PAGESHARE_OK && counts(totals, 0, 0, 0, 0, 0, 0));
    CHECK(pageshare_free(&machine) == PAGESHARE_OK);
    CHECK(pageshare_free(&machine) == PAGESHARE_ERROR_NO_MACHINE);
    CHECK(pageshare_make(&machine, 1048576, many, 1, SALTS, 1) == PAGESHARE_OK);
    CHECK(served(pageshare_store(&machine, 0, 1048575, 4095, LETTER, 1), PAGESHARE_VERDICT_MAPPED, 0));
    CHECK(pageshare_free(&machine) == PAGESHARE_OK);
}

/* A machine of each hash, and of none. */
static void check_hashes(void) {
    struct pageshare machine = PAGESHARE_NONE;
    for (uint32_t hash = PAGESHARE_SHA256; hash <= PAGESHARE_SHA256_WIDE; hash++) {
        CHECK(pageshare_make_hashed(&machine, 0, PAGES, 2, SALTS, 2, hash) == PAGESHARE_ERROR_FRAMES);
        CHECK(pageshare_make_hashed(&machine, 3, PAGES, 2, SALTS, 2, hash) == PAGESHARE_OK);
        CHECK(pageshare_make_hashed(&machine, 3, PAGES, 2, SALTS, 2, 3) == PAGESHARE_ERROR_IN_USE);
        CHECK(served(pageshare_store(&machine, 0, 0, 0, LETTER, 1), PAGESHARE_VERDICT_MAPPED, 0));
        CHECK(served(pageshare_store(&machine, 0, 1, 0, LETTER, 1), PAGESHARE_VERDICT_MAPPED, 0));
        CHECK(served(pageshare_propose(&machine, 0, 0), PAGESHARE_VERDICT_HINTED, 0));
        CHECK(served(pageshare_propose(&machine, 0, 1), PAGESHARE_VERDICT_PAIRED, 0));
        CHECK(pageshare_free(&machine) == PAGESHARE_OK);
    }
    CHECK(pageshare_make_hashed(&machine, 0, PAGES, 2, SALTS, 2, 3) == PAGESHARE_ERROR_HASH);
    CHECK(pageshare_make_hashed(&machine, 3, PAGES, 2, SALTS, 2, UINT32_MAX) == PAGESHARE_ERROR_HASH);
    CHECK(pageshare_free(&machine) == PAGESHARE_ERROR_NO_MACHINE);
}

/* The pages of examples/three-share.journal, and what comes of them. */
static void check_pages(struct pageshare *m) {
    struct pageshare_totals totals;
    uint8_t room[64], page[PAGESHARE_PAGE_BYTES];
    uint32_t mpn = 77, other = 78;
    const uint8_t *at = NULL, *beside = NULL;
    CHECK(served(pageshare_store(m, 0, 0, 0, LETTER, 1), PAGESHARE_VERDICT_MAPPED, 0));
    CHECK(served(pageshare_store(m, 0, 1, 0, LETTER, 1), PAGESHARE_VERDICT_MAPPED, 0));
    CHECK(served(pageshare_store(m, 1, 0, 0, LETTER, 1), PAGESHARE_VERDICT_MAPPED, 0));
    CHECK(pageshare_frame(m, 0, 0, &mpn) == PAGESHARE_OK && pageshare_frame(m, 1, 0, &other) == PAGESHARE_OK);
    CHECK(mpn < 3 && other < 3 && mpn != other);
    CHECK(served(pageshare_propose(m, 0, 0), PAGESHARE_VERDICT_HINTED, 0));
    CHECK(served(pageshare_propose(m, 0, 0), PAGESHARE_VERDICT_KEPT, 0));
    CHECK(served(pageshare_propose(m, 0, 1), PAGESHARE_VERDICT_PAIRED, 0));
    CHECK(served(pageshare_propose(m, 1, 0), PAGESHARE_VERDICT_JOINED, 3));
    CHECK(served(pageshare_propose(m, 1, 0), PAGESHARE_VERDICT_ALREADY, 0));
    CHECK(pageshare_frame(m, 1, 0, &other) == PAGESHARE_OK && mpn == other);
    CHECK(pageshare_report(m, &totals) == PAGESHARE_OK && counts(totals, 8, 3, 3, 1, 2, 0));
    memset(room, 0xee, sizeof room);
    CHECK(served(pageshare_load(m, 1, 0, 0, room, 4), PAGESHARE_VERDICT_BYTES, 4));
    CHECK(room[0] == 0x41 && room[1] == 0 && room[3] == 0 && room[4] == 0xee);
    CHECK(pageshare_page(m, 0, 1, &at) == PAGESHARE_OK && pageshare_page(m, 1, 0, &beside) == PAGESHARE_OK);
    CHECK(pageshare_read(m, 1, 0, page) == PAGESHARE_OK && page[0] == 0x41 && page[4095] == 0);
    CHECK(at == beside && memcmp(at, page, sizeof page) == 0);
    CHECK(served(pageshare_store(m, 1, 0, 4095, LETTER, 1), PAGESHARE_VERDICT_COPIED, 0));
    CHECK(pageshare_frame(m, 1, 0, &other) == PAGESHARE_OK && mpn != other);
    CHECK(served(pageshare_count(m, 1, &totals), PAGESHARE_VERDICT_TOTALS, 0) && counts(totals, 11, 3, 2, 2, 1, 0));
    CHECK(served(pageshare_release(m, 0, 0), PAGESHARE_VERDICT_RELEASED, 0));
    CHECK(served(pageshare_store(m, 0, 1, 0, LETTER, 1), PAGESHARE_VERDICT_TAKEN, 0));
    CHECK(served(pageshare_store(m, 0, 1, 0, LETTER, 1), PAGESHARE_VERDICT_STORED, 0));
    CHECK(served(pageshare_release(m, 0, 1), PAGESHARE_VERDICT_RELEASED, 1));
    CHECK(served(pageshare_release(m, 0, 1), PAGESHARE_VERDICT_UNMAPPED, 0));
    const struct pageshare_page_name names[] = {{0, 0}, {1, 0}, {0, 1}, {0, 99}, {256, 0}, {1, 0}};
    CHECK(pageshare_hash(m, names, 6) == PAGESHARE_OK);
    CHECK(pageshare_restart_count(m) == PAGESHARE_OK);
    CHECK(pageshare_report(m, &totals) == PAGESHARE_OK && counts(totals, 0, 1, 0, 1, 0, 0));
}

/* Statuses of single calls, which change nothing. */
static void check_refusals(struct pageshare *m) {
    struct pageshare_totals totals = {9, 9, 9, 9, 9, 9};
    uint8_t room[65], page[PAGESHARE_PAGE_BYTES];
    uint32_t mpn = 77;
    const uint8_t *at = room;
    memset(room, 0xee, sizeof room);
    memset(page, 0xee, sizeof page);
    CHECK(refused(pageshare_propose(m, 2, 0), PAGESHARE_ERROR_NO_GUEST));
    CHECK(refused(pageshare_release(m, 256, 0), PAGESHARE_ERROR_NO_GUEST));
    CHECK(refused(pageshare_count(m, UINT32_MAX, &totals), PAGESHARE_ERROR_NO_GUEST) && totals.entries == 9);
    CHECK(refused(pageshare_store(m, 2, 0, 0, room, 65), PAGESHARE_ERROR_NO_GUEST));
    CHECK(refused(pageshare_store(m, 0, 0, 4096, room, 0), PAGESHARE_ERROR_LENGTH));
    CHECK(refused(pageshare_store(m, 0, 0, 0, room, 65), PAGESHARE_ERROR_LENGTH));
    CHECK(refused(pageshare_store(m, 0, 0, 4096, room, 1), PAGESHARE_ERROR_CROSSES));
    CHECK(refused(pageshare_store(m, 0, 9, UINT32_MAX, room, 64), PAGESHARE_ERROR_CROSSES));
    CHECK(refused(pageshare_load(m, 0, 0, 0, room, 0), PAGESHARE_ERROR_LENGTH));
    CHECK(refused(pageshare_load(m, 0, 0, 0, room, 65), PAGESHARE_ERROR_LENGTH));
    CHECK(refused(pageshare_load(m, 0, 0, 4093, room, 4), PAGESHARE_ERROR_CROSSES) && room[0] == 0xee);
    CHECK(served(pageshare_load(m, 0, 2, 0, room, 4), PAGESHARE_VERDICT_NO_PAGE, 0) && room[0] == 0xee);
    CHECK(served(pageshare_propose(m, 0, UINT32_MAX), PAGESHARE_VERDICT_NO_PAGE, 0));
    CHECK(served(pageshare_propose(m, 0, 0), PAGESHARE_VERDICT_UNMAPPED, 0));
    CHECK(pageshare_read(m, 0, 2, page) == PAGESHARE_ERROR_NO_PAGE && page[0] == 0xee);
    CHECK(pageshare_read(m, UINT32_MAX, 0, page) == PAGESHARE_ERROR_NO_PAGE && page[0] == 0xee);
    CHECK(pageshare_read(m, 0, 0, page) == PAGESHARE_OK && page[0] == 0 && page[4095] == 0);
    CHECK(pageshare_frame(m, 1, 1, &mpn) == PAGESHARE_ERROR_NO_PAGE && mpn == 77);
    CHECK(pageshare_frame(m, 0, 0, &mpn) == PAGESHARE_ERROR_UNMAPPED && mpn == 77);
    CHECK(pageshare_page(m, 256, 0, &at) == PAGESHARE_ERROR_NO_PAGE && at == room);
    CHECK(pageshare_page(m, 0, 1, &at) == PAGESHARE_ERROR_UNMAPPED && at == room);
    CHECK(pageshare_report(m, &totals) == PAGESHARE_OK && totals.entries == 3);
}

/* Every call on a handle that holds no machine. */
static void check_none(struct pageshare *m) {
    struct pageshare_totals totals = {9, 9, 9, 9, 9, 9};
    uint8_t page[PAGESHARE_PAGE_BYTES] = {0};
    uint32_t mpn = 77;
    const uint8_t *at = page;
    CHECK(refused(pageshare_propose(m, 0, 0), PAGESHARE_ERROR_NO_MACHINE));
    CHECK(refused(pageshare_store(m, 0, 0, 0, page, 65), PAGESHARE_ERROR_NO_MACHINE));
    CHECK(refused(pageshare_load(m, 0, 0, 0, page, 1), PAGESHARE_ERROR_NO_MACHINE));
    CHECK(refused(pageshare_release(m, 0, 0), PAGESHARE_ERROR_NO_MACHINE));
    CHECK(refused(pageshare_count(m, 0, &totals), PAGESHARE_ERROR_NO_MACHINE));
    CHECK(pageshare_restart_count(m) == PAGESHARE_ERROR_NO_MACHINE);
    const struct pageshare_page_name name = {0, 0};
    CHECK(pageshare_hash(m, &name, 1) == PAGESHARE_ERROR_NO_MACHINE);
    CHECK(pageshare_report(m, &totals) == PAGESHARE_ERROR_NO_MACHINE && totals.entries == 9);
    CHECK(pageshare_read(m, 0, 0, page) == PAGESHARE_ERROR_NO_MACHINE);
    CHECK(pageshare_frame(m, 0, 0, &mpn) == PAGESHARE_ERROR_NO_MACHINE && mpn == 77);
    CHECK(pageshare_page(m, 0, 0, &at) == PAGESHARE_ERROR_NO_MACHINE && at == page);
    CHECK(pageshare_free(m) == PAGESHARE_ERROR_NO_MACHINE);
}

/* A full machine refuses a store that needs a frame; pages of other salts aren't shared. */
static void check_full_and_salted(struct pageshare *m) {
    const uint32_t salts[] = {0, 5};
    CHECK(pageshare_make(m, 2, PAGES, 2, salts, 2) == PAGESHARE_OK);
    CHECK(served(pageshare_store(m, 0, 0, 0, LETTER, 1), PAGESHARE_VERDICT_MAPPED, 0));
    CHECK(served(pageshare_store(m, 1, 0, 0, LETTER, 1), PAGESHARE_VERDICT_MAPPED, 0));
    CHECK(served(pageshare_store(m, 0, 1, 0, LETTER, 1), PAGESHARE_VERDICT_NO_FRAME, 0));
    CHECK(served(pageshare_propose(m, 0, 0), PAGESHARE_VERDICT_HINTED, 0));
    CHECK(served(pageshare_propose(m, 1, 0), PAGESHARE_VERDICT_HINTED, 0));
    CHECK(pageshare_free(m) == PAGESHARE_OK);
}

int main(void) {
    struct pageshare machine = PAGESHARE_NONE;
    check_none(&machine);
    check_make();
    check_hashes();
    CHECK(pageshare_make(&machine, 3, PAGES, 2, SALTS, 2) == PAGESHARE_OK);
    check_pages(&machine);
    check_refusals(&machine);
    CHECK(pageshare_free(&machine) == PAGESHARE_OK);
    check_none(&machine);
    check_full_and_salted(&machine);
    if (failures == 0) puts("ok");
    return failures == 0 ? 0 : 1;
}
