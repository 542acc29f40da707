/*
 * Times calls of the C library, of two guests with 512 pages each, all mapped; calls of whole pages, of two such guests of whose pages
 * none is mapped; and lends of 16,384 pages, of which every other one equals the one before. Prints the nanoseconds of one
 * call, and of these lends the pages lent a second, in the best of several runs, since other programs only ever add to it.
 *
 *     cc -O2 -Ilib/include benches/embed.c out/libpageshare.a -o out/embed/bench && out/embed/bench
 *
 * or with out/libpageshare-v3.a, for whose processors the wide hash is.
 */
#include "pageshare.h"
#include <stdio.h>
#include <stdlib.h>
#include <string.h>
#include <time.h>

enum { CALLS = 200000, RUNS = 25 };

/* The hashes by their numbers. */
static const char *const HASHES[] = {"SHA-256", "fold", "wide SHA-256"};

static double now(void) {
    struct timespec time;
    if (timespec_get(&time, TIME_UTC) != TIME_UTC) exit(1);
    return (double)time.tv_sec * 1e9 + (double)time.tv_nsec;
}

static uint32_t stores(struct pageshare *machine) {
    uint32_t refused = 0;
    for (uint32_t i = 0; i < CALLS; i++) {
        uint8_t bytes[8];
        memcpy(bytes, &i, 4);
        memcpy(bytes + 4, &i, 4);
        refused += pageshare_store(machine, i & 1, (i >> 1) & 511, (i * 8) & 4088, bytes, 8).status;
    }
    return refused;
}

static uint32_t loads(struct pageshare *machine) {
    uint32_t refused = 0;
    uint8_t room[8];
    for (uint32_t i = 0; i < CALLS; i++)
        refused += pageshare_load(machine, i & 1, (i >> 1) & 511, (i * 8) & 4088, room, 8).status;
    return refused;
}

static uint32_t reports(struct pageshare *machine) {
    uint32_t refused = 0;
    struct pageshare_totals totals;
    for (uint32_t i = 0; i < CALLS; i++) refused += pageshare_report(machine, &totals);
    return refused;
}

enum { PAGES = 512, WHOLE_RUNS = 50 };

/* The contents of 512 pages: all different, or all equal. */
static uint8_t different[PAGES][PAGESHARE_PAGE_BYTES], equal[PAGES][PAGESHARE_PAGE_BYTES];
static uint8_t room[PAGESHARE_PAGE_BYTES];

typedef uint32_t whole_call(struct pageshare *, uint32_t guest, uint32_t ppn, uint8_t *page);

static uint32_t lends(struct pageshare *m, uint32_t guest, uint32_t ppn, uint8_t *page) {
    return pageshare_lend(m, guest, ppn, page).status;
}

static uint32_t page_stores(struct pageshare *m, uint32_t guest, uint32_t ppn, uint8_t *page) {
    return pageshare_store_page(m, guest, ppn, page).status;
}

static uint32_t returns(struct pageshare *m, uint32_t guest, uint32_t ppn, uint8_t *page) {
    (void)page;
    return pageshare_take_back(m, guest, ppn, room).status;
}

/* What a page is copied into by hand, beside a page that is stored. */
static uint32_t copies(struct pageshare *m, uint32_t guest, uint32_t ppn, uint8_t *page) {
    static uint8_t to[PAGES][PAGESHARE_PAGE_BYTES];
    (void)m, (void)guest;
    memcpy(to[ppn], page, sizeof to[ppn]);
    __asm__ volatile("" : : "r"(to[ppn]) : "memory");
    return 0;
}

/* The nanoseconds of a call on each page of a guest, by turns. */
static double time_whole(struct pageshare *m, whole_call *call, uint32_t guest, uint8_t pages[PAGES][PAGESHARE_PAGE_BYTES]) {
    double start = now();
    for (uint32_t ppn = 0; ppn < PAGES; ppn++)
        if (call(m, guest, ppn, pages[ppn]) != 0) exit(1);
    return (now() - start) / PAGES;
}

static double less(double a, double b) {
    return a < b ? a : b;
}

/* Each page of guest 0 is new, and each of guest 1 joins those of the guest, of which all are equal. */
static void time_whole_pages(struct pageshare *m, const char *hash) {
    double fresh = 1e18, joins = 1e18, back = 1e18, stored = 1e18, copied = 1e18;
    for (uint32_t i = 0; i < PAGES; i++) memcpy(different[i], &i, sizeof i);
    for (int run = 0; run < WHOLE_RUNS; run++) {
        if (pageshare_restart_count(m) != PAGESHARE_OK) exit(1);
        fresh = less(fresh, time_whole(m, lends, 0, different));
        joins = less(joins, time_whole(m, lends, 1, equal));
        stored = less(stored, time_whole(m, page_stores, 0, different));
        copied = less(copied, time_whole(m, copies, 0, different));
        back = less(back, time_whole(m, returns, 0, different));
        if (time_whole(m, returns, 1, equal) < 0) exit(1);
    }
    printf("%s: lend, new %.0f ns; lend, joins %.0f ns; take_back %.0f ns; store_page %.0f ns; memcpy of a page %.0f ns\n", hash, fresh,
           joins, back, stored, copied);
}

/* The hashes of a guest's pages, computed together after a store to each. */
static void time_hashes(struct pageshare *m, const char *hash) {
    struct pageshare_page_name names[PAGES];
    double least = 1e18;
    for (uint32_t ppn = 0; ppn < PAGES; ppn++) names[ppn] = (struct pageshare_page_name){0, ppn};
    for (int run = 0; run < WHOLE_RUNS; run++) {
        if (pageshare_restart_count(m) != PAGESHARE_OK) exit(1);
        if (time_whole(m, page_stores, 0, different) < 0) exit(1);
        double start = now();
        if (pageshare_hash(m, names, PAGES) != PAGESHARE_OK) exit(1);
        least = less(least, (now() - start) / PAGES);
    }
    printf("%s: %.0f ns a page by pageshare_hash\n", hash, least);
}

enum { MANY = 16384, MANY_RUNS = 15 };

/* The pages lent a second, one by one or by pageshare_lend_many, to a machine that has none of them. */
static double rate(uint32_t hash, bool in_lists, const struct pageshare_lending *lendings, struct pageshare_answer *answers) {
    const uint32_t pages[] = {MANY}, salts[] = {0};
    double least = 1e18;
    struct pageshare machine = PAGESHARE_NONE;
    const struct pageshare_config config = {.frames = MANY, .pages = pages, .salts = salts, .guests = 1, .hash = hash};
    if (pageshare_make(&machine, &config) != PAGESHARE_OK) exit(1);
    for (int run = 0; run < MANY_RUNS; run++) {
        double start = now();
        if (in_lists) {
            if (pageshare_lend_many(&machine, lendings, MANY, answers) != PAGESHARE_OK) exit(1);
        } else {
            for (uint32_t i = 0; i < MANY; i++) answers[i] = pageshare_lend(&machine, 0, i, lendings[i].page);
        }
        least = less(least, now() - start);
        for (uint32_t i = 0; i < MANY; i++)
            if (answers[i].status != 0 || pageshare_release(&machine, 0, i).status != 0) exit(1);
        if (pageshare_restart_count(&machine) != PAGESHARE_OK) exit(1);
    }
    if (pageshare_free(&machine) != PAGESHARE_OK) exit(1);
    return MANY / least * 1e9;
}

/* Every other page equals the one before. */
static void time_many(void) {
    uint8_t *bytes = calloc(MANY, PAGESHARE_PAGE_BYTES);
    struct pageshare_lending *lendings = calloc(MANY, sizeof *lendings);
    struct pageshare_answer *answers = calloc(MANY, sizeof *answers);
    if (bytes == NULL || lendings == NULL || answers == NULL) exit(1);
    for (uint32_t i = 0; i < MANY; i++) {
        uint8_t *page = bytes + (size_t)i * PAGESHARE_PAGE_BYTES;
        uint32_t content = i / 2;
        memcpy(page, &content, sizeof content);
        page[PAGESHARE_PAGE_BYTES - 1] = 1;
        lendings[i] = (struct pageshare_lending){0, i, page};
    }
    for (uint32_t hash = PAGESHARE_SHA256; hash <= PAGESHARE_SHA256_WIDE; hash++)
        printf("%s: %.0f pages lent a second one by one, %.0f in lists, half of them equal\n", HASHES[hash],
               rate(hash, false, lendings, answers), rate(hash, true, lendings, answers));
    free(bytes);
    free(lendings);
    free(answers);
}

static void time_calls(const char *name, uint32_t (*calls)(struct pageshare *), struct pageshare *machine) {
    double least = 1e18;
    for (int run = 0; run < RUNS; run++) {
        double start = now();
        if (calls(machine) != 0) exit(1);
        double taken = (now() - start) / CALLS;
        least = taken < least ? taken : least;
    }
    printf("%s %.1f ns\n", name, least);
}

int main(void) {
    struct pageshare machine = PAGESHARE_NONE;
    const uint32_t pages[] = {512, 512}, salts[] = {0, 0};
    struct pageshare_config config = {.frames = 1024, .pages = pages, .salts = salts, .guests = 2};
    if (pageshare_make(&machine, &config) != PAGESHARE_OK) return 1;
    time_calls("store", stores, &machine);
    time_calls("load", loads, &machine);
    time_calls("report", reports, &machine);
    if (pageshare_free(&machine) != PAGESHARE_OK) return 1;
    for (uint32_t hash = PAGESHARE_SHA256; hash <= PAGESHARE_SHA256_WIDE; hash++) {
        config.hash = hash;
        if (pageshare_make(&machine, &config) != PAGESHARE_OK) return 1;
        time_whole_pages(&machine, HASHES[hash]);
        time_hashes(&machine, HASHES[hash]);
        if (pageshare_free(&machine) != PAGESHARE_OK) return 1;
    }
    time_many();
    return 0;
}
