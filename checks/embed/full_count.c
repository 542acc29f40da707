/*
 * Serves requests until no more can be counted: then each is refused with status 8, until the count begins anew. A whole page is
 * refused as soon as its requests can't all be counted. Prints "ok", or what failed.
 */
#include "pageshare.h"
#include <stdio.h>

static int fail(const char *what) {
    printf("%s\n", what);
    return 1;
}

static bool is_full(struct pageshare_answer answer) {
    return answer.status == PAGESHARE_ERROR_FULL && answer.verdict == PAGESHARE_VERDICT_NONE && answer.count == 0;
}

int main(void) {
    const uint32_t pages[] = {1}, salts[] = {0};
    struct pageshare machine = PAGESHARE_NONE;
    struct pageshare_totals totals;
    static uint8_t page[PAGESHARE_PAGE_BYTES];
    uint8_t letter = 0x41;
    if (pageshare_make(&machine, 1, pages, 1, salts, 1) != PAGESHARE_OK) return fail("no machine");
    for (uint32_t i = 0; i < UINT32_MAX - 194; i++)
        if (pageshare_release(&machine, 0, 0).verdict != PAGESHARE_VERDICT_UNMAPPED) return fail("refused too early");
    /* (194 more: a lend of 65, its release, a page of 64 stores, its release, and then too few for a lend and for a page) */
    if (pageshare_lend(&machine, 0, 0, page).status != PAGESHARE_OK || pageshare_take_back(&machine, 0, 0, page).count != 1) return fail("no lend");
    if (pageshare_store_page(&machine, 0, 0, page).status != PAGESHARE_OK || pageshare_release(&machine, 0, 0).count != 1) return fail("no page");
    if (pageshare_release(&machine, 0, 0).status != PAGESHARE_OK) return fail("refused too early"); /* 62 are left */
    if (!is_full(pageshare_store_page(&machine, 0, 0, page)) || !is_full(pageshare_lend(&machine, 0, 0, page))) return fail("not refused");
    for (int i = 0; i < 62; i++)
        if (pageshare_release(&machine, 0, 0).verdict != PAGESHARE_VERDICT_UNMAPPED) return fail("refused too early");
    if (!is_full(pageshare_take_back(&machine, 0, 0, page))) return fail("not refused");
    if (pageshare_report(&machine, &totals) != PAGESHARE_OK || totals.entries != UINT32_MAX) return fail("another count");
    if (!is_full(pageshare_propose(&machine, 0, 0)) || !is_full(pageshare_release(&machine, 0, 0))) return fail("not refused");
    if (!is_full(pageshare_store(&machine, 0, 0, 0, &letter, 1)) || !is_full(pageshare_load(&machine, 0, 0, 0, &letter, 1)))
        return fail("not refused");
    if (!is_full(pageshare_count(&machine, 0, &totals)) || totals.mapped != 0) return fail("not refused");
    /* (7 comes before 8, and 8 before 9) */
    if (pageshare_propose(&machine, 1, 0).status != PAGESHARE_ERROR_NO_GUEST) return fail("another cause than the first");
    if (!is_full(pageshare_store(&machine, 0, 0, 0, &letter, 0))) return fail("another cause than the first");
    if (pageshare_restart_count(&machine) != PAGESHARE_OK) return fail("the count does not begin anew");
    if (pageshare_store(&machine, 0, 0, 0, &letter, 1).verdict != PAGESHARE_VERDICT_MAPPED) return fail("it does not serve anew");
    if (pageshare_report(&machine, &totals) != PAGESHARE_OK || totals.entries != 1) return fail("another count afterwards");
    if (pageshare_free(&machine) != PAGESHARE_OK) return fail("not freed");
    puts("ok");
    return 0;
}
