/*
 * Refuses each allocation of pageshare_make in turn, with a region and without: the status is 4, nothing stays
 * allocated, and the handle still serves. Once a machine is made, no call asks for memory. Its rattle_alloc, rattle_realloc and rattle_dealloc take the place of
 * the library's own, which call malloc, realloc and free. Prints "ok", or what failed.
 */
#include "pageshare.h"
#include <stdio.h>
#include <stdlib.h>
#include <string.h>

struct tried {
    bool ok;
    void *at;
};

/* How many blocks may still be had, and how many are held. */
static long left, held;

struct tried rattle_alloc(size_t bytes, size_t align);
struct tried rattle_realloc(void *at, size_t kept, size_t bytes, size_t align);
void rattle_dealloc(void *at);

struct tried rattle_alloc(size_t bytes, size_t align) {
    static _Alignas(16) unsigned char nothing[16];
    (void)align;
    void *block = left > 0 ? malloc(bytes > 0 ? bytes : 1) : NULL;
    if (block == NULL) return (struct tried){false, nothing};
    left--;
    held++;
    return (struct tried){true, block};
}

/* A block that can't be had leaves the old one as it is. */
struct tried rattle_realloc(void *at, size_t kept, size_t bytes, size_t align) {
    (void)kept;
    (void)align;
    void *block = left > 0 ? realloc(at, bytes > 0 ? bytes : 1) : NULL;
    if (block == NULL) return (struct tried){false, at};
    left--;
    return (struct tried){true, block};
}

void rattle_dealloc(void *at) {
    held--;
    free(at);
}

/* Whether the calls that are no requests answer with no memory to be had. */
static bool looks(struct pageshare *machine) {
    static uint8_t page[PAGESHARE_PAGE_BYTES];
    struct pageshare_totals totals;
    const uint8_t *at = page;
    uint32_t mpn = 0;
    if (pageshare_report(machine, &totals) != PAGESHARE_OK || totals.mapped != 2) return false;
    if (pageshare_read(machine, 0, 1, page) != PAGESHARE_OK || page[0] != 0x41) return false;
    if (pageshare_frame(machine, 1, 0, &mpn) != PAGESHARE_OK || mpn >= 3) return false;
    if (pageshare_page(machine, 1, 0, &at) != PAGESHARE_OK || at[0] != 0x41) return false;
    return pageshare_restart_count(machine) == PAGESHARE_OK;
}

/* Whether pages are lent in a group, with no memory to be had; the last is taken back. */
static bool lends_list(struct pageshare *machine, uint8_t *page) {
    const struct pageshare_lending pages[] = {{0, 0, page}, {0, 0, page}, {0, 9, page}, {0, 0, page}, {9, 0, page}};
    struct pageshare_answer answers[5];
    if (pageshare_lend_many(machine, pages, 5, answers) != PAGESHARE_OK) return false;
    if (answers[0].verdict != PAGESHARE_VERDICT_HINTED || answers[1].verdict != PAGESHARE_VERDICT_KEPT) return false;
    if (answers[2].verdict != PAGESHARE_VERDICT_NO_PAGE || answers[3].verdict != PAGESHARE_VERDICT_KEPT) return false;
    return answers[4].status == PAGESHARE_ERROR_NO_GUEST && pageshare_take_back(machine, 0, 0, page).verdict == PAGESHARE_VERDICT_RELEASED;
}

/* Whether whole pages are stored, lent and taken back with no memory to be had. */
static bool lends(struct pageshare *machine) {
    static uint8_t page[PAGESHARE_PAGE_BYTES];
    memset(page, 0x42, sizeof page);
    if (pageshare_lend(machine, 0, 0, page).verdict != PAGESHARE_VERDICT_HINTED) return false;
    if (pageshare_store_page(machine, 0, 0, page).verdict != PAGESHARE_VERDICT_STORED) return false;
    if (pageshare_take_back(machine, 0, 0, page).verdict != PAGESHARE_VERDICT_RELEASED || page[0] != 0x42) return false;
    return lends_list(machine, page);
}

/* Whether the machine serves with no memory to be had. */
static bool serves(struct pageshare *machine) {
    const uint8_t letter = 0x41;
    const struct pageshare_page_name names[] = {{0, 0}, {0, 1}, {1, 0}};
    struct pageshare_totals totals;
    uint8_t room[64];
    for (uint32_t i = 0; i < 3; i++)
        if (pageshare_store(machine, i / 2, i % 2, 0, &letter, 1).verdict != PAGESHARE_VERDICT_MAPPED) return false;
    if (pageshare_hash(machine, names, 3) != PAGESHARE_OK) return false;
    for (uint32_t i = 0; i < 3; i++)
        if (pageshare_propose(machine, i / 2, i % 2).status != PAGESHARE_OK) return false;
    if (pageshare_store(machine, 0, 0, 1, &letter, 1).verdict != PAGESHARE_VERDICT_COPIED) return false;
    if (pageshare_load(machine, 0, 0, 0, room, 64).count != 64) return false;
    if (pageshare_release(machine, 0, 0).count != 1 || !lends(machine)) return false;
    return pageshare_count(machine, 0, &totals).verdict == PAGESHARE_VERDICT_TOTALS && totals.shared == 2 && looks(machine);
}

static int fail(long allowed, const char *what) {
    printf("with %ld blocks: %s\n", allowed, what);
    return 1;
}

/* Makes the machine with one more block each time, until it is made. In a region of three pages, if there is one. */
static int refuse_each(uint8_t *region) {
    static const uint32_t pages[] = {2, 1}, salts[] = {0, 0};
    const struct pageshare_config config = {3, pages, salts, 2, PAGESHARE_SHA256, region, 3 * PAGESHARE_PAGE_BYTES};
    struct pageshare machine = PAGESHARE_NONE;
    for (long allowed = 0; allowed < 1000; allowed++) {
        left = allowed;
        uint32_t status = pageshare_make(&machine, &config);
        if (status == PAGESHARE_OK) {
            if (allowed < (region == NULL ? 5 : 4) || left != 0) return fail(allowed, "made too early");
            if (!serves(&machine)) return fail(allowed, "it does not serve without more memory");
            if (pageshare_free(&machine) != PAGESHARE_OK || held != 0) return fail(allowed, "not all was freed");
            return 0;
        }
        if (status != PAGESHARE_ERROR_MEMORY) return fail(allowed, "another status than 4");
        if (held != 0) return fail(allowed, "blocks stay allocated");
    }
    return fail(1000, "no machine");
}

int main(void) {
    static _Alignas(PAGESHARE_PAGE_BYTES) uint8_t region[3 * PAGESHARE_PAGE_BYTES];
    if (refuse_each(NULL) != 0 || refuse_each(region) != 0) return 1;
    puts("ok");
    return 0;
}
