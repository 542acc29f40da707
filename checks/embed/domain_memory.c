/*
 * Refuses each allocation of pageshare_domain_make in turn, with frames of its own and in a region: the status is 4, nothing stays
 * allocated, and the handle still serves. Once a domain is made, no call asks for memory. Its rattle_alloc, rattle_realloc and
 * rattle_dealloc take the place of the library's own, which call malloc, realloc and free. Prints "ok", or what failed.
 */
#include "pageshare.h"
#include <stdio.h>
#include <stdlib.h>
#include <string.h>

struct tried {
    bool ok;
    void *at;
};

/* How many blocks may still be had, and how many are held. */
static long left, held;

struct tried rattle_alloc(size_t bytes, size_t align);
struct tried rattle_realloc(void *at, size_t kept, size_t bytes, size_t align);
void rattle_dealloc(void *at);

struct tried rattle_alloc(size_t bytes, size_t align) {
    static _Alignas(16) unsigned char nothing[16];
    (void)align;
    void *block = left > 0 ? malloc(bytes > 0 ? bytes : 1) : NULL;
    if (block == NULL) return (struct tried){false, nothing};
    left--;
    held++;
    return (struct tried){true, block};
}

/* A block that can't be had leaves the old one as it is. */
struct tried rattle_realloc(void *at, size_t kept, size_t bytes, size_t align) {
    (void)kept;
    (void)align;
    void *block = left > 0 ? realloc(at, bytes > 0 ? bytes : 1) : NULL;
    if (block == NULL) return (struct tried){false, at};
    left--;
    return (struct tried){true, block};
}

void rattle_dealloc(void *at) {
    held--;
    free(at);
}

/* Whether two clients' equal pages are lent, released and left behind with no memory to be had. */
static bool serves(struct pageshare_domain *domain) {
    static uint8_t page[PAGESHARE_PAGE_BYTES];
    const uint64_t pages[] = {1, 2}, fingerprints[] = {5, 5};
    struct pageshare_domain_totals totals;
    uint32_t first, second, freed[2];
    uint8_t seen[2];
    size_t count;
    memset(page, 0x42, sizeof page);
    if (pageshare_domain_enter(domain, &first) != PAGESHARE_OK || pageshare_domain_enter(domain, &second) != PAGESHARE_OK) return false;
    if (pageshare_domain_seen(domain, first, pages, fingerprints, 2, seen) != PAGESHARE_OK || seen[0] != 0 || seen[1] != 1) return false;
    struct pageshare_loan one = pageshare_domain_lend(domain, first, page), two = pageshare_domain_lend(domain, second, page);
    if (one.status != PAGESHARE_OK || two.status != PAGESHARE_OK || one.frame != two.frame) return false;
    page[0] = 0x43;
    if (pageshare_domain_lend(domain, second, page).status != PAGESHARE_ERROR_NO_FRAME) return false;
    if (pageshare_domain_report(domain, &totals) != PAGESHARE_OK || totals.reclaimed != 1) return false;
    if (pageshare_domain_release(domain, first, one.slot, freed) != PAGESHARE_OK) return false;
    if (pageshare_domain_leave(domain, second, freed, 2, &count) != PAGESHARE_OK || count != 1 || freed[0] != two.frame) return false;
    return pageshare_domain_leave(domain, second, freed, 2, &count) == PAGESHARE_OK && count == 0;
}

static int fail(long allowed, const char *what) {
    printf("with %ld blocks: %s\n", allowed, what);
    return 1;
}

/* Makes the domain with one more block each time, until it is made. In a region of two pages, if there is one. */
static int refuse_each(uint8_t *region) {
    const struct pageshare_domain_config config = {.size = sizeof config,
                                                   .machines = 1,
                                                   .slots = 3,
                                                   .frames = 2,
                                                   .clients = 2,
                                                   .recent = 2,
                                                   .hash = PAGESHARE_SHA256,
                                                   .salt = 7,
                                                   .seed = 9,
                                                   .region = region,
                                                   .region_bytes = 2 * PAGESHARE_PAGE_BYTES};
    struct pageshare_domain domain = PAGESHARE_DOMAIN_NONE;
    for (long allowed = 0; allowed < 1000; allowed++) {
        left = allowed;
        uint32_t status = pageshare_domain_make(&domain, &config);
        if (status == PAGESHARE_OK) {
            if (allowed < 5 || left != 0) return fail(allowed, "made too early");
            if (!serves(&domain)) return fail(allowed, "it does not serve without more memory");
            if (pageshare_domain_free(&domain) != PAGESHARE_OK || held != 0) return fail(allowed, "not all was freed");
            return 0;
        }
        if (status != PAGESHARE_ERROR_MEMORY) return fail(allowed, "another status than 4");
        if (held != 0) return fail(allowed, "blocks stay allocated");
    }
    return fail(1000, "no domain");
}

int main(void) {
    static _Alignas(PAGESHARE_PAGE_BYTES) uint8_t region[2 * PAGESHARE_PAGE_BYTES];
    if (refuse_each(NULL) != 0 || refuse_each(region) != 0) return 1;
    puts("ok");
    return 0;
}
