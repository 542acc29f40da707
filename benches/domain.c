/*
 * Times the lends and releases of a domain beside those of a bare machine, with one thread and with four, and counts a domain's memory.
 * Prints a line each. A time is the least of several runs, by turns, since other programs only ever add to it.
 *
 *     cc -O2 -pthread -Ilib/include benches/domain.c out/libpageshare.a -o out/embed/domain_bench && out/embed/domain_bench
 */
#define _GNU_SOURCE
#include "pageshare.h"
#include <malloc.h>
#include <pthread.h>
#include <stdio.h>
#include <stdlib.h>
#include <string.h>
#include <sys/mman.h>
#include <time.h>

enum { PAGE = PAGESHARE_PAGE_BYTES, CONTENTS = 16, JOINS = 16384, RUNS = 25, THREADS = 4, SALT = 3 };

static const char *const HASHES[] = {"SHA-256", "fold", "wide SHA-256"};

static double now(void) {
    struct timespec time;
    if (timespec_get(&time, TIME_UTC) != TIME_UTC) exit(1);
    return (double)time.tv_sec * 1e9 + (double)time.tv_nsec;
}

static double less(double a, double b) {
    return a < b ? a : b;
}

static void must(bool is) {
    if (is) return;
    fprintf(stderr, "a call was refused\n");
    exit(1);
}

static void fill(uint8_t *page, uint32_t content) {
    memset(page, 1, PAGE);
    memcpy(page, &content, sizeof content);
}

static struct pageshare_domain_shape shape_of(uint32_t slots, uint32_t frames) {
    return (struct pageshare_domain_shape){.machines = 1, .slots = slots, .frames = frames, .clients = 1, .recent = 1, .salt = SALT, .seed = 1};
}

/* ---- lends that join, and their releases, by one thread */

struct beside {
    double bare_lend, bare_release, lend, release; /* nanoseconds of one call */
};

/* The machine has a shared frame for each content already: its last pages have it. */
static void time_bare(struct pageshare *machine, uint8_t contents[CONTENTS][PAGE], struct beside *least) {
    double start = now();
    for (uint32_t i = 0; i < JOINS; i++) must(pageshare_lend(machine, 0, i, contents[i % CONTENTS]).verdict == PAGESHARE_VERDICT_JOINED);
    least->bare_lend = less(least->bare_lend, (now() - start) / JOINS);
    start = now();
    for (uint32_t i = 0; i < JOINS; i++) must(pageshare_release(machine, 0, i).status == PAGESHARE_OK);
    least->bare_release = less(least->bare_release, (now() - start) / JOINS);
    must(pageshare_restart_count(machine) == PAGESHARE_OK);
}

static void time_domain(struct pageshare_domain *domain, uint8_t contents[CONTENTS][PAGE], uint64_t *slots, struct beside *least) {
    double start = now();
    for (uint32_t i = 0; i < JOINS; i++) {
        struct pageshare_loan loan = pageshare_domain_lend(domain, 0, contents[i % CONTENTS]);
        must(loan.status == PAGESHARE_OK && loan.sharers > 2);
        slots[i] = loan.slot;
    }
    least->lend = less(least->lend, (now() - start) / JOINS);
    start = now();
    for (uint32_t i = 0; i < JOINS; i++) {
        uint32_t freed;
        must(pageshare_domain_release(domain, 0, slots[i], &freed) == PAGESHARE_OK);
    }
    least->release = less(least->release, (now() - start) / JOINS);
}

static void time_joins(uint32_t hash, uint8_t contents[CONTENTS][PAGE]) {
    static uint64_t slots[JOINS];
    const uint32_t pages[] = {JOINS + 2 * CONTENTS}, salts[] = {SALT};
    const struct pageshare_domain_shape shape = shape_of(JOINS + 2 * CONTENTS, 4 * CONTENTS);
    struct pageshare machine = PAGESHARE_NONE;
    struct pageshare_domain domain = PAGESHARE_DOMAIN_NONE;
    struct beside least = {1e18, 1e18, 1e18, 1e18};
    uint32_t client;
    must(pageshare_make_hashed(&machine, 4 * CONTENTS, pages, 1, salts, 1, hash) == PAGESHARE_OK);
    must(pageshare_domain_make_shaped(&domain, &shape, hash) == PAGESHARE_OK && pageshare_domain_enter(&domain, &client) == PAGESHARE_OK);
    for (uint32_t i = 0; i < 2 * CONTENTS; i++) {
        must(pageshare_lend(&machine, 0, JOINS + i, contents[i % CONTENTS]).status == PAGESHARE_OK);
        must(pageshare_domain_lend(&domain, client, contents[i % CONTENTS]).status == PAGESHARE_OK);
    }
    for (int run = 0; run < RUNS; run++) {
        time_bare(&machine, contents, &least);
        time_domain(&domain, contents, slots, &least);
    }
    printf("%s: lend that joins %.0f ns, bare %.0f ns (%.2f times); release %.0f ns, bare %.0f ns\n", HASHES[hash], least.lend,
           least.bare_lend, least.lend / least.bare_lend, least.release, least.bare_release);
    must(pageshare_free(&machine) == PAGESHARE_OK && pageshare_domain_free(&domain) == PAGESHARE_OK);
}

/* ---- a thread for each machine: each has a domain of its own, and takes the pages whose fingerprints name it */

enum { MANY = 65536, MANY_CONTENTS = 1024 };

struct part {
    struct pageshare_domain domain;
    const uint8_t (*contents)[PAGE];
    uint32_t *lent, count; /* which content is lent, one after the other */
    pthread_barrier_t *start;
    double took; /* nanoseconds */
};

static void *lend_part(void *given) {
    struct part *part = given;
    uint32_t client;
    must(pageshare_domain_enter(&part->domain, &client) == PAGESHARE_OK);
    pthread_barrier_wait(part->start);
    double start = now();
    for (uint32_t i = 0; i < part->count; i++)
        must(pageshare_domain_lend(&part->domain, client, part->contents[part->lent[i]]).status == PAGESHARE_OK);
    part->took = now() - start;
    return NULL;
}

/* The pages lent a second by so many threads. */
static double rate(uint32_t threads, const uint8_t contents[MANY_CONTENTS][PAGE]) {
    struct part parts[THREADS] = {0};
    pthread_t ids[THREADS];
    pthread_barrier_t start;
    const struct pageshare_domain_shape shape = shape_of(MANY, MANY_CONTENTS + 1);
    double longest = 0;
    must(pthread_barrier_init(&start, NULL, threads) == 0);
    for (uint32_t t = 0; t < threads; t++) {
        parts[t].lent = malloc(MANY * sizeof *parts[t].lent);
        parts[t].contents = contents;
        parts[t].start = &start;
        must(parts[t].lent != NULL && pageshare_domain_make_shaped(&parts[t].domain, &shape, PAGESHARE_FOLD) == PAGESHARE_OK);
    }
    for (uint32_t i = 0; i < MANY; i++) {
        uint32_t content = i * 31 % MANY_CONTENTS;
        struct part *part = &parts[pageshare_domain_fingerprint(SALT, contents[content]) % threads];
        part->lent[part->count++] = content;
    }
    for (uint32_t t = 0; t < threads; t++) must(pthread_create(&ids[t], NULL, lend_part, &parts[t]) == 0);
    for (uint32_t t = 0; t < threads; t++) {
        must(pthread_join(ids[t], NULL) == 0 && pageshare_domain_free(&parts[t].domain) == PAGESHARE_OK);
        longest = parts[t].took > longest ? parts[t].took : longest;
        free(parts[t].lent);
    }
    must(pthread_barrier_destroy(&start) == 0);
    return MANY / longest * 1e9;
}

static void time_threads(void) {
    uint8_t(*contents)[PAGE] = malloc((size_t)MANY_CONTENTS * PAGE);
    double one = 0, all = 0;
    must(contents != NULL);
    for (uint32_t i = 0; i < MANY_CONTENTS; i++) fill(contents[i], i);
    for (int run = 0; run < RUNS; run++) {
        double single = rate(1, (const uint8_t(*)[PAGE])contents), together = rate(THREADS, (const uint8_t(*)[PAGE])contents);
        one = single > one ? single : one;
        all = together > all ? together : all;
    }
    printf("fold: %.0f pages lent a second by one thread, %.0f by %d (%.2f times)\n", one, all, THREADS, all / one);
    free(contents);
}

/* ---- memory */

static size_t taken(void) {
    struct mallinfo2 info = mallinfo2();
    return info.uordblks + info.hblkhd;
}

/* The bytes beside each page that may be lent, without its frame's. The frames are in a region. */
static void count_memory(uint32_t slots, uint32_t frames) {
    const size_t bytes = (size_t)frames * PAGE;
    const struct pageshare_domain_shape shape = shape_of(slots, frames);
    struct pageshare_domain domain = PAGESHARE_DOMAIN_NONE;
    struct pageshare_region region = {mmap(NULL, bytes, PROT_READ | PROT_WRITE, MAP_PRIVATE | MAP_ANONYMOUS | MAP_NORESERVE, -1, 0), frames};
    must(region.at != MAP_FAILED);
    size_t before = taken();
    must(pageshare_domain_begin(&domain, &shape, PAGESHARE_FOLD, frames) == PAGESHARE_OK && pageshare_domain_add(&domain, region) == PAGESHARE_OK);
    printf("%u slots in %u frames: %.1f bytes beside each page\n", slots, frames, (double)(taken() - before) / slots);
    must(pageshare_domain_free(&domain) == PAGESHARE_OK && munmap(region.at, bytes) == 0);
}

int main(void) {
    static uint8_t contents[CONTENTS][PAGE];
    for (uint32_t i = 0; i < CONTENTS; i++) fill(contents[i], i);
    for (uint32_t hash = PAGESHARE_SHA256; hash <= PAGESHARE_SHA256_WIDE; hash++) time_joins(hash, contents);
    time_threads();
    count_memory(1048576, 20000);
    count_memory(1048576, 262144);
    count_memory(1048576, 1048576);
    return 0;
}
