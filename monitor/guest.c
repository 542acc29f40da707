/*
 * A guest without an operating system: a program in user mode of 64-bit mode, on each of its processors (or, with init.c, the
 * first process of a Linux guest). It fills memory by a
 * generator, and then checks each word of it in each round while it changes some. Of its memory some pages are as in all guests,
 * at another place in each; some are its own; some are zeros. It writes some seldom, and some in each round. The rest it touches
 * page by page as time goes on.
 *
 * A processor prints "ok", the cycles that a write to a seldom written page took and the thousands of cycles of the round. Or it
 * prints "WRONG", and which page of which region.
 */
#include "guest.h"

enum { WORDS = 512, CHANGES = 32, FRESH_ROUNDS = 8, MIXED_MOST = 8192, PROCESSORS = 4, SHIFT = 3 };

/* The seeds of contents that all guests have; seed 0 is zeros. */
enum { SEED_COMMON = 1, SEED_SAME = 2, SEED_MIXED = 3, SEED_OWN = 1000, SEED_FRESH = 2000 };

typedef volatile uint64_t word_t;

struct region {
    const char *name;
    word_t *at;
    uint64_t pages, seed;
};

struct memory {
    struct region common, same, own, zero, mixed, hot, fresh;
};

/* What each processor added to its word of a mixed page: 0, or the round that changed it. */
static uint32_t added[PROCESSORS][MIXED_MOST];
static uint64_t filled; /* processors that have filled their part */

static const struct guest_config *config;

static void out(uint16_t port, uint8_t byte) { __asm__ volatile("outb %0, %1" : : "a"(byte), "Nd"(port) : "memory"); }

static void print(uint64_t processor, const char *text) {
    for (; *text != 0; text++) out((uint16_t)(PORT_TEXT + processor), (uint8_t)*text);
}

static void print_number(uint64_t processor, uint64_t number) {
    if (number >= 10) print_number(processor, number / 10);
    out((uint16_t)(PORT_TEXT + processor), (uint8_t)('0' + number % 10));
}

static uint64_t scrambled(uint64_t x) {
    x = (x ^ x >> 30) * 0xbf58476d1ce4e5b9u;
    x = (x ^ x >> 27) * 0x94d049bb133111ebu;
    return x ^ x >> 31;
}

/* The word that stands at a place of a region with this seed. */
static uint64_t word_at(uint64_t seed, uint64_t place) { return seed == 0 ? 0 : scrambled(seed * 0x9e3779b97f4a7c15u + place); }

static uint64_t cycles(void) {
    uint32_t low, high;
    __asm__ volatile("lfence; rdtsc" : "=a"(low), "=d"(high) : : "memory");
    return (uint64_t)high << 32 | low;
}

static uint64_t part(uint64_t pages, uint64_t processor) { return pages * processor / config->processors; }

static void fill_page(const struct region *region, uint64_t page, uint64_t seed) {
    for (uint64_t i = page * WORDS; i < (page + 1) * WORDS; i++) region->at[i] = word_at(seed, i);
}

/* Fills a processor's part of a region. */
static void fill(const struct region *region, uint64_t processor, uint64_t seed) {
    for (uint64_t i = part(region->pages, processor); i < part(region->pages, processor + 1); i++) fill_page(region, i, seed);
}

static void check_page(const struct region *region, uint64_t processor, uint64_t page, uint64_t seed) {
    for (uint64_t i = page * WORDS; i < (page + 1) * WORDS; i++) {
        if (region->at[i] == word_at(seed, i)) continue;
        print(processor, "WRONG ");
        print(processor, region->name);
        print(processor, " page ");
        print_number(processor, page);
        print(processor, "\n");
        return;
    }
}

static void check(const struct region *region, uint64_t processor, uint64_t seed) {
    for (uint64_t i = part(region->pages, processor); i < part(region->pages, processor + 1); i++)
        check_page(region, processor, i, seed);
}

/* The word of a mixed page that a processor alone changes. */
static uint64_t own_word(uint64_t page, uint64_t processor) { return page * WORDS + 7 + processor; }

/* Checks all mixed pages: of the words that processors change, one's own alone. */
static void check_mixed(const struct region *region, uint64_t processor) {
    for (uint64_t page = 0; page < region->pages; page++) {
        uint64_t own = own_word(page, processor), first = own_word(page, 0), end = own_word(page, config->processors);
        for (uint64_t i = page * WORDS; i < (page + 1) * WORDS; i++) {
            uint64_t more = i == own ? added[processor][page] : 0;
            if ((i >= first && i < end && i != own) || region->at[i] == word_at(region->seed, i) + more) continue;
            print(processor, "WRONG mixed page ");
            print_number(processor, page);
            print(processor, "\n");
            break;
        }
    }
}

/* The next region: so many pages from `*at` on. */
static struct region cut(const char *name, uint64_t *at, uint64_t pages, uint64_t seed) {
    struct region region = {name, (word_t *)*at, pages, seed};
    *at += pages * WORDS * sizeof(uint64_t);
    return region;
}

/* The regions of this guest, in hundredths of its memory. */
static struct memory plan(void) {
    uint64_t at = config->begin + config->number * SHIFT * WORDS * 8, share = (config->end - config->begin) / (WORDS * 8) / 100;
    uint64_t mixed = 6 * share < MIXED_MOST ? 6 * share : MIXED_MOST;
    struct memory memory;
    memory.common = cut("common", &at, 40 * share, SEED_COMMON);
    memory.same = cut("same", &at, 9 * share, SEED_SAME);
    memory.own = cut("own", &at, 9 * share, SEED_OWN + config->number);
    memory.zero = cut("zero", &at, 9 * share, 0);
    memory.mixed = cut("mixed", &at, mixed, SEED_MIXED);
    memory.hot = cut("hot", &at, share * 3 / 2, (SEED_OWN + config->number) << 32);
    memory.fresh = cut("fresh", &at, (config->end - at) / (WORDS * 8), SEED_FRESH + config->number);
    return memory;
}

/* Fills a processor's parts, and waits for the others. */
static void fill_all(const struct memory *memory, uint64_t processor) {
    fill(&memory->common, processor, memory->common.seed);
    fill(&memory->same, processor, memory->same.seed);
    fill(&memory->own, processor, memory->own.seed);
    fill(&memory->zero, processor, SEED_MIXED); /* zeros that were something else before */
    fill(&memory->zero, processor, memory->zero.seed);
    fill(&memory->mixed, processor, memory->mixed.seed);
    fill(&memory->hot, processor, memory->hot.seed);
    __atomic_fetch_add(&filled, 1, __ATOMIC_SEQ_CST);
    while (__atomic_load_n(&filled, __ATOMIC_SEQ_CST) < config->processors) __asm__ volatile("pause");
}

static void check_all(const struct memory *memory, uint64_t processor, uint64_t round, uint64_t freshened) {
    check(&memory->common, processor, memory->common.seed);
    check(&memory->same, processor, memory->same.seed);
    check(&memory->own, processor, memory->own.seed);
    check(&memory->zero, processor, memory->zero.seed);
    check_mixed(&memory->mixed, processor);
    check(&memory->hot, processor, memory->hot.seed + round - 1);
    uint64_t first = part(memory->fresh.pages, processor);
    for (uint64_t i = first; i < first + freshened; i++) check_page(&memory->fresh, processor, i, memory->fresh.seed);
}

/* Changes some mixed pages. Returns the mean of a write's cycles. */
static uint64_t change(const struct memory *memory, uint64_t processor, uint64_t round) {
    static uint64_t state[PROCESSORS];
    uint64_t spent = 0;
    for (uint64_t i = 0; i < CHANGES; i++) {
        state[processor] = scrambled(state[processor] + round * PROCESSORS * 64 + config->number * PROCESSORS + processor);
        uint64_t page = state[processor] % memory->mixed.pages, own = own_word(page, processor);
        added[processor][page] = added[processor][page] == 0 ? (uint32_t)round : 0;
        uint64_t value = word_at(memory->mixed.seed, own) + added[processor][page], begun = cycles();
        memory->mixed.at[own] = value;
        spent += cycles() - begun;
    }
    return spent / CHANGES;
}

/* Fills a page that nobody has touched, which must be zeros: the processor, or KVM for it, writes into the page table as well. */
static uint64_t touch(const struct memory *memory, uint64_t processor, uint64_t freshened) {
    uint64_t page = part(memory->fresh.pages, processor) + freshened;
    if (page >= part(memory->fresh.pages, processor + 1)) return freshened;
    check_page(&memory->fresh, processor, page, 0);
    fill_page(&memory->fresh, page, memory->fresh.seed);
    return freshened + 1;
}

void guest_run(const struct guest_config *from, uint64_t processor) {
    __atomic_store_n(&config, from, __ATOMIC_RELAXED); /* (all processors store the same) */
    struct memory memory = plan();
    uint64_t freshened = 0;
    fill_all(&memory, processor);
    print(processor, "ready\n");
    for (uint64_t round = 1;; round++) {
        uint64_t begun = cycles();
        check_all(&memory, processor, round, freshened);
        fill(&memory.hot, processor, memory.hot.seed + round);
        if (round % FRESH_ROUNDS == 0) freshened = touch(&memory, processor, freshened);
        uint64_t price = change(&memory, processor, round), took = cycles() - begun;
        print(processor, "ok ");
        print_number(processor, price);
        print(processor, " ");
        print_number(processor, took / 1000);
        print(processor, "\n");
        out(PORT_REST, (uint8_t)config->rest);
    }
}

#ifndef GUEST_OF_LINUX
void begin(uint64_t processor);
void begin(uint64_t processor) { guest_run((const struct guest_config *)GUEST_CONFIG, processor); }
#endif
