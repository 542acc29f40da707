/*
 * Parts of windows that are huge pages: which stay whole, which are split, and which become whole again, also while they are written, and
 * where the system refuses something on the way. With --trace FILE parts only go to and fro, and the file gets a record of events. Prints
 * "parts: ok" (status 0) or what isn't so (status 1).
 */
#define _GNU_SOURCE
#include "faults.h"
#include "fixture.h"
#include "ring.h"
#include <errno.h>
#include <inttypes.h>
#include <time.h>

#ifndef MADV_COLLAPSE
#define MADV_COLLAPSE 25 /* Linux 6.1 */
#endif

enum { PARTS = 6, PAGES = PARTS * PART, FROM = 64, BEFORE = 40, HUGE_KIB = 2048, FLIP_SECONDS = 6 };
static const size_t part_bytes = (size_t)PART * PAGE;

static const struct windows_config keeps_huge = {.pins = WINDOWS_PINS_NEVER, .tuning = {.huge_from = FROM}, .never_wait = true};

/* Whether a part is one huge page of the system. */
static bool is_huge(const uint8_t *at) {
    struct pagemap pagemap;
    bool is = pagemap_open(&pagemap, false) == 0 && pagemap_is_huge(&pagemap, at);
    close(pagemap.fd);
    return is;
}

/* Memory of huge pages for so many parts, and one more before and behind them; NULL if the system has no more to give. */
static uint8_t *huge_memory(size_t parts) {
    enum { TRIES = 5 };
    for (int i = 0; i < TRIES; i++) {
        uint8_t *at = memory((parts + 3) * PART);
        size_t are_huge = 0;
        at += (part_bytes - (uintptr_t)at % part_bytes) % part_bytes;
        madvise(at, (parts + 2) * part_bytes, MADV_HUGEPAGE);
        memset(at, 1, (parts + 2) * part_bytes);
        for (size_t part = 0; part < parts + 2; part++) are_huge += is_huge(at + part * part_bytes);
        if (are_huge == parts + 2) return at + part_bytes;
        munmap(at, (parts + 2) * part_bytes);
    }
    return NULL;
}

static void left_out(struct fixture *fixture) {
    puts("left out: something of huge pages, of which this system has no more to give");
    fixture_free(fixture);
}

static long huge_kib(void) { return number_in("/proc/self/smaps_rollup", "AnonHugePages:"); }

/* A word of a page by which it is like no other, unless another one gets the same. */
static void mark(uint8_t *at, size_t page, uint32_t word) { memcpy(at + page * PAGE + 100, &word, sizeof word); }

static uint32_t marked(const uint8_t *at, size_t page) {
    uint32_t word;
    memcpy(&word, at + page * PAGE + 100, sizeof word);
    return word;
}

/* Each page has a content of its own, but that in each part the first `equal` ones have one for all. */
static void fill_parts(uint8_t *at, size_t parts, const size_t *equal) {
    for (size_t page = 0; page < parts * PART; page++)
        mark(at, page, page % PART < equal[page / PART] ? 7 : (uint32_t)page + 1000);
}

static size_t differing(const uint8_t *at, size_t parts, const size_t *equal) {
    size_t count = 0;
    for (size_t page = 0; page < parts * PART; page++)
        count += marked(at, page) != (page % PART < equal[page / PART] ? 7 : (uint32_t)page + 1000);
    return count;
}

/* (memory of some ages that lies side by side may be one mapping of the system or several) */
static void check_mappings(const struct fixture *fixture, const uint8_t *at, size_t pages, size_t off) {
    size_t counted = counts_of(fixture).mappings, found = mappings_in(at, pages);
    if (counted > found + off || found > counted + off) printf("%zu mappings are counted, and there are %zu\n", counted, found);
    check(counted <= found + off && found <= counted + off, "mappings are counted");
}

/* Looks until so many parts became whole: the system may have no huge page for some time. */
static bool looks_until_whole(struct fixture *fixture, uint64_t parts) {
    for (int i = 0; i < 200 && counts_of(fixture).made_whole < parts; i++) {
        const struct timespec rest = {.tv_nsec = 10000000};
        if (i > 3) nanosleep(&rest, NULL);
        look(fixture->windows);
    }
    return counts_of(fixture).made_whole == parts;
}

/* A part stays whole until 64 of its pages could be shared. Only such parts are split, and lent from. */
static void stays_or_splits(bool never_scan) {
    static const size_t equal[PARTS] = {0, 20, 63, 64, 300, 512};
    struct windows_config config = keeps_huge;
    config.never_scan = never_scan;
    struct fixture fixture = fixture_make(&config, PAGES);
    uint8_t *at = huge_memory(PARTS);
    if (at == NULL) return left_out(&fixture);
    long before = huge_kib();
    fill_parts(at, PARTS, equal);
    struct window *window = window_over(&fixture, at, PAGES);
    check(counts_of(&fixture).parts_whole == PARTS && huge_kib() == before, "a window begins with whole parts");
    look_often(&fixture, 30);
    struct windows_counts counts = counts_of(&fixture);
    check(counts.lent == 64 + 300 + 512, "all equal pages of parts that have many are lent");
    check(counts.parts_whole == 3 && counts.parts_split == 3 && counts.splits == 3, "and no other part is split");
    check(huge_kib() == before - 3 * HUGE_KIB && is_huge(at) && is_huge(at + 2 * part_bytes), "the others are huge pages still");
    check_mappings(&fixture, at, PAGES, 2);
    check(differing(at, PARTS, equal) == 0, "each page reads as before");
    const struct windows_tuning eager = {.huge_from = 1}, never = {.huge_from = PART + 1};
    windows_tune(fixture.windows, &never);
    look_often(&fixture, 20);
    check(counts_of(&fixture).parts_whole >= 3, "no part is split when none may be");
    windows_tune(fixture.windows, &eager);
    look_often(&fixture, 30);
    check(counts_of(&fixture).parts_whole == 1 && counts_of(&fixture).lent == 20 + 63 + 64 + 300 + 512,
          "where any page counts only the part stays whole that has none");
    check(differing(at, PARTS, equal) == 0, "each page reads as before");
    must(window_free(window, WINDOW_TAKE_HOME), "window_free");
    check(differing(at, PARTS, equal) == 0 && counts_of(&fixture).parts_whole + counts_of(&fixture).parts_split == 0,
          "and at home");
    fixture_free(&fixture);
}

/* Zeros of a whole part stay where they are, and count. */
static void zeros(void) {
    struct fixture fixture = fixture_make(&keeps_huge, PAGES);
    uint8_t *at = huge_memory(2);
    if (at == NULL) return left_out(&fixture);
    static const size_t equal[2] = {0, 0};
    fill_parts(at, 2, equal);
    memset(at, 0, 40 * PAGE);
    memset(at + part_bytes, 0, 80 * PAGE);
    struct window *window = window_over(&fixture, at, 2 * PART);
    look_often(&fixture, 30);
    struct windows_counts counts = counts_of(&fixture);
    check(counts.zeros_now == 80 && counts.parts_whole == 1 && is_huge(at), "zeros are given back where there are many");
    check(counts.parts_huge == 1, "and the other part is counted as a huge page");
    /* (what khugepaged may do at any time this call does at once) */
    bool any_takes = false;
    madvise(at + part_bytes, part_bytes, MADV_COLLAPSE);
    for (size_t page = 0; page < 80; page++) any_takes = any_takes || takes_memory(&fixture, at + part_bytes + page * PAGE);
    check(!any_takes, "no huge page brings the memory of zeros back");
    check(are_bytes(at, 0) && are_bytes(at + part_bytes, 0) && marked(at, 50) == 1050, "all read as before");
    fixture_end(&fixture, window);
}

/* A window begins and ends amid huge pages, which are split, and what is beside it isn't touched. */
static void ends(void) {
    static const size_t equal[4] = {10, 10, 100, 10};
    struct fixture fixture = fixture_make(&keeps_huge, PAGES);
    uint8_t *all = huge_memory(4);
    if (all == NULL) return left_out(&fixture);
    uint8_t *at = all + (PART - BEFORE) * PAGE;
    const size_t count = BEFORE + 2 * PART + 30;
    fill_parts(all, 4, equal);
    struct window *window = window_over(&fixture, at, count);
    check(counts_of(&fixture).parts_whole == 2, "what is no whole part at an end of a window is split");
    look_often(&fixture, 30);
    check(counts_of(&fixture).lent == 100 + 10 && counts_of(&fixture).parts_whole == 1, "and is lent from");
    check(is_huge(all + part_bytes) && differing(all, 4, equal) == 0, "each page reads as before");
    check_mappings(&fixture, at, count, 2);
    must(window_free(window, WINDOW_TAKE_HOME), "window_free");
    check(differing(all, 4, equal) == 0, "and at home");
    fixture_free(&fixture);
}

/* Memory that isn't huge has nothing to lose. */
static void small(void) {
    static const size_t equal[2] = {20, 20};
    struct windows_config config = keeps_huge;
    config.never_wait = false;
    struct fixture fixture = fixture_make(&config, PAGES);
    uint8_t *at = memory(3 * PART);
    at += (part_bytes - (uintptr_t)at % part_bytes) % part_bytes;
    madvise(at, 2 * part_bytes, MADV_NOHUGEPAGE);
    fill_parts(at, 2, equal);
    madvise(at, 2 * part_bytes, MADV_HUGEPAGE);
    struct window *window = window_over(&fixture, at, 2 * PART);
    check(counts_of(&fixture).parts_whole == 2, "parts that may become huge are whole");
    look_often(&fixture, 60);
    check(counts_of(&fixture).lent == 40, "but are lent from at once, and stay so where that is worth it");
    fixture_end(&fixture, window);
}

/* Splits a window's first part, and writes to all of its lent pages. */
static struct window *split_and_written(struct fixture *fixture, uint8_t *at, size_t *equal) {
    equal[0] = 200;
    fill_parts(at, 2, equal);
    struct window *window = window_over(fixture, at, 2 * PART);
    look_often(fixture, 20);
    check(counts_of(fixture).lent == 200 && counts_of(fixture).parts_split == 1, "a part is split, and lent from");
    equal[0] = 0;
    fill_parts(at, 2, equal);
    return window;
}

/* A part nearly all of whose pages have memory of their own again becomes one huge page. */
static void becomes_whole(void) {
    size_t equal[2] = {0};
    struct fixture fixture = fixture_make(&keeps_huge, PAGES);
    uint8_t *at = huge_memory(2);
    if (at == NULL) return left_out(&fixture);
    struct pageshare_domain_totals totals;
    struct lender_counts lent;
    struct window *window = split_and_written(&fixture, at, equal);
    check(looks_until_whole(&fixture, 1), "it becomes whole");
    struct windows_counts counts = counts_of(&fixture);
    check(counts.parts_whole == 2 && is_huge(at), "it is a huge page again");
    check(differing(at, 2, equal) == 0, "each page reads as before");
    check_mappings(&fixture, at, 2 * PART, 2);
    look_often(&fixture, 2);
    lender_count(fixture.lender, &totals, &lent);
    check(totals.slots == 0, "all its slots are released");
    equal[0] = 100;
    fill_parts(at, 2, equal);
    look_often(&fixture, 20);
    check(counts_of(&fixture).lent == 100 && counts_of(&fixture).splits == 2, "it can be split again");
    must(window_discard(window, 0, PART), "window_discard");
    look_often(&fixture, 2);
    fixture_end(&fixture, window);
}

/* A part some of whose pages are lent still, or were given back, or have never had memory, becomes whole with them. */
static void becomes_whole_over_frames(void) {
    size_t equal[2] = {0};
    struct fixture fixture = fixture_make(&keeps_huge, PAGES);
    uint8_t *at = huge_memory(2);
    if (at == NULL) return left_out(&fixture);
    struct window *window = split_and_written(&fixture, at, equal);
    equal[0] = 9;
    for (size_t page = 0; page < 9; page++) mark(at, page, 7);
    const struct windows_tuning never = {.huge_from = PART + 1}, from = {.huge_from = FROM};
    windows_tune(fixture.windows, &(struct windows_tuning){.huge_from = 1}); /* (then nothing becomes whole) */
    look_often(&fixture, 12);
    check(counts_of(&fixture).lent == 9, "some pages are lent");
    must(window_discard(window, 20, 3), "window_discard");
    windows_tune(fixture.windows, &from);
    check(looks_until_whole(&fixture, 1) && is_huge(at) && counts_of(&fixture).lent == 0, "the part becomes whole");
    for (size_t page = 20; page < 23; page++) {
        check(are_bytes(at + page * PAGE, 0), "what was discarded is zeros");
        mark(at, page, (uint32_t)page + 1000);
    }
    check(differing(at, 2, equal) == 0, "each other page reads as before");
    windows_tune(fixture.windows, &never);
    must(window_free(window, WINDOW_TAKE_HOME), "window_free");
    check(differing(at, 2, equal) == 0, "and at home");
    fixture_free(&fixture);
}

/* What keeps a part split: pages that a device may have pinned, and pages that have left the window. */
static enum windows_pins found_late(void *opaque) {
    int *asked = opaque;
    return ++*asked < 1000 ? WINDOWS_PINS_NEVER : WINDOWS_PINS_POSSIBLE;
}

static void stays_split(void) {
    size_t equal[2] = {0};
    int asked = 0;
    struct windows_config config = keeps_huge;
    config.find_pins = found_late;
    config.find_pins_opaque = &asked;
    struct fixture fixture = fixture_make(&config, PAGES);
    uint8_t *at = huge_memory(2);
    if (at == NULL) return left_out(&fixture);
    struct window *window = split_and_written(&fixture, at, equal);
    const struct windows_transfer transfer = windows_transfer_begin(fixture.windows, &(struct iovec){at + 300 * PAGE + 7, 1}, 1);
    look_often(&fixture, 3);
    check(counts_of(&fixture).made_whole == 0 && counts_of(&fixture).not_made_whole > 0, "a transfer keeps its part split");
    windows_transfer_end(fixture.windows, transfer);
    asked = 998; /* (the look before it is guarded is the last one that finds none) */
    look_often(&fixture, 1);
    check(asked >= 1000 && counts_of(&fixture).made_whole == 0, "and a device that is found when the part is guarded");
    look_often(&fixture, 3);
    check(counts_of(&fixture).made_whole == 0, "and devices that may have pinned a copy over a frame");
    windows_set_pins(fixture.windows, WINDOWS_PINS_NEVER);
    asked = 0;
    must(window_cut(window, 400, 2, NULL), "window_cut");
    look_often(&fixture, 3);
    check(counts_of(&fixture).made_whole == 0 && differing(at, 2, equal) == 0, "and pages that have left");
    must(window_free(window, WINDOW_TAKE_HOME), "window_free");
    check(differing(at, 2, equal) == 0, "each page reads as before");
    fixture_free(&fixture);
}

static bool is_planned(void) { return planned.protects + planned.puts + planned.releases + planned.reads + planned.huge > 0; }

/* Something is refused on the way, each call in turn: nothing is lost, nobody waits, and later the part becomes whole. */
static void refused(void) {
    size_t equal[2] = {0};
    for (int way = 0; way < 5; way++) {
        struct fixture fixture = fixture_make(&keeps_huge, PAGES);
        uint8_t *at = huge_memory(2);
        if (at == NULL) return left_out(&fixture);
        struct window *window = split_and_written(&fixture, at, equal);
        planned = (struct planned){.window = (uintptr_t)at, .window_end = (uintptr_t)at + part_bytes};
        if (way == 0) planned.protects = 1;
        if (way == 1) planned.puts = 1;
        if (way == 2) planned.releases = 1;
        if (way == 3) planned.reads = 1;
        if (way == 4) planned.huge = 1;
        for (int i = 0; i < 100 && is_planned(); i++) look(fixture.windows);
        check(!is_planned(), "a call was refused");
        check((counts_of(&fixture).made_whole == 1) == (way == 2), "then the part stays split, but where all is done already");
        at[5 * PAGE + 9] = 'w', at[5 * PAGE + 9] = 1;
        check(differing(at, 2, equal) == 0, "nothing is lost, and nobody waits");
        planned = (struct planned){0};
        check(looks_until_whole(&fixture, 1) && is_huge(at) && differing(at, 2, equal) == 0, "later it becomes whole");
        must(window_free(window, WINDOW_DROP), "window_free");
        fixture_free(&fixture);
    }
}

/* A part that can't be split isn't lent from. */
static void not_split(void) {
    static const size_t equal[2] = {100, 0};
    struct fixture fixture = fixture_make(&keeps_huge, PAGES);
    uint8_t *at = huge_memory(2);
    if (at == NULL) return left_out(&fixture);
    fill_parts(at, 2, equal);
    struct window *window = window_over(&fixture, at, 2 * PART);
    planned = (struct planned){.window = (uintptr_t)at, .window_end = (uintptr_t)at + part_bytes, .small = 1000};
    look_often(&fixture, 12);
    check(planned.small < 1000 && counts_of(&fixture).lent == 0 && counts_of(&fixture).parts_whole == 2, "a part stays whole");
    planned = (struct planned){0};
    look_often(&fixture, 12);
    check(counts_of(&fixture).lent == 100 && differing(at, 2, equal) == 0, "later it is split and lent from");
    fixture_end(&fixture, window);
}

/* A part whose pages might find no mappings stays whole, and the set says why. */
static void crowded(void) {
    static const size_t equal[2] = {300, 0};
    struct windows_config config = keeps_huge;
    config.mappings_most = 100;
    struct fixture fixture = fixture_make(&config, PAGES);
    uint8_t *at = huge_memory(2);
    if (at == NULL) return left_out(&fixture);
    fill_parts(at, 2, equal);
    struct window *window = window_over(&fixture, at, 2 * PART);
    look_often(&fixture, 12);
    struct windows_counts counts = counts_of(&fixture);
    check(counts.lent == 0 && counts.parts_whole == 2 && is_huge(at), "a part stays whole where mappings are short");
    check(counts.pause == WINDOWS_CROWDED && counts.no_mapping > 0, "and the set says so");
    fixture_end(&fixture, window);
}

/* What is said of huge pages later. */
static void said(void) {
    static const size_t equal[2] = {0, 0};
    struct fixture fixture = fixture_make(&keeps_huge, PAGES);
    uint8_t *at = huge_memory(2);
    if (at == NULL) return left_out(&fixture);
    fill_parts(at, 2, equal);
    struct window *window = window_over(&fixture, at, 2 * PART);
    check(window_say_huge(window, 0, 2 * PART, false) == 0 && window_say_huge(window, 1, 2 * PART, true) == EINVAL, "it is said");
    check(counts_of(&fixture).parts_whole == 2, "parts stay whole until pages are to be lent");
    for (size_t page = 0; page < 100; page++) mark(at, page, 7);
    look_often(&fixture, 12);
    check(counts_of(&fixture).lent == 100 && counts_of(&fixture).parts_whole == 1, "a part is split");
    for (size_t page = 0; page < 100; page++) mark(at, page, (uint32_t)page + 1000);
    look_often(&fixture, 6);
    check(counts_of(&fixture).made_whole == 0, "and stays so where no huge pages are wanted");
    check(window_say_huge(window, 0, 2 * PART, true) == 0, "they are wanted again");
    check(looks_until_whole(&fixture, 1) && is_huge(at) && differing(at, 2, equal) == 0, "then it becomes whole");
    fixture_end(&fixture, window);
}

/* ---- parts that go to and fro while they are written ---- */

struct writer {
    uint8_t *at;
    unsigned number;
    uint64_t wrong, writes;
    uint32_t words[2 * PART];
    pthread_t thread;
};
static atomic_bool stop;
static pthread_rwlock_t discards = PTHREAD_RWLOCK_INITIALIZER;

__attribute__((no_sanitize_thread, noinline)) static uint32_t load(const volatile uint32_t *at) { return *at; }
__attribute__((no_sanitize_thread, noinline)) static void store(volatile uint32_t *at, uint32_t value) { *at = value; }

static volatile uint32_t *word_at(const struct writer *writer, size_t page) {
    return (volatile uint32_t *)(void *)(writer->at + page * PAGE) + 200 + writer->number;
}

/* Pages are written in some bursts, between which they can be equal to others: most words are 0 or 1. */
static void *write_words(void *opaque) {
    struct writer *writer = opaque;
    uint64_t state = writer->number + 5;
    const struct timespec rest = {.tv_nsec = 300000};
    while (!atomic_load(&stop)) {
        size_t first = draw(&state, 2 * PART), count = draw(&state, 80);
        pthread_rwlock_rdlock(&discards);
        for (size_t i = 0; i < count; i++) {
            size_t page = (first + i) % (2 * PART);
            writer->wrong += load(word_at(writer, page)) != writer->words[page];
            writer->words[page] = (uint32_t)(draw(&state, 40) == 0 ? draw(&state, 1000) : draw(&state, 2));
            store(word_at(writer, page), writer->words[page]);
            writer->writes++;
        }
        for (size_t i = 0; i < 400; i++) {
            size_t page = draw(&state, 2 * PART);
            writer->wrong += load(word_at(writer, page)) != writer->words[page];
        }
        pthread_rwlock_unlock(&discards);
        nanosleep(&rest, NULL);
    }
    return NULL;
}

static void discard_some(struct window *window, struct writer *writers, uint64_t *state) {
    size_t first = draw(state, 2 * PART), count = draw(state, 30) + 1;
    if (count > 2 * PART - first) count = 2 * PART - first;
    pthread_rwlock_wrlock(&discards);
    must(window_discard(window, first, count), "window_discard");
    for (size_t i = 0; i < 2; i++)
        for (size_t page = first; page < first + count; page++) writers[i].words[page] = 0;
    pthread_rwlock_unlock(&discards);
}

/* A device pins a page, and reads to it some looks later: what it reads is there. */
static void read_by_device(uint8_t *at, int disk, struct windows *windows, struct writer *writers, uint64_t *state) {
    struct ring ring;
    size_t page = draw(state, 2 * PART);
    windows_set_pins(windows, WINDOWS_PINS_POSSIBLE);
    if (ring_pin(&ring, at + page * PAGE, PAGE)) {
        for (int i = 0; i < 5; i++) must(look(windows), "windows_look");
        pthread_rwlock_wrlock(&discards);
        check(ring_read(&ring, disk, at + page * PAGE, PAGE), "a device reads");
        check(are_bytes(at + page * PAGE, 3), "what it reads is there");
        for (size_t i = 0; i < 2; i++) memset(&writers[i].words[page], 3, sizeof writers[i].words[page]);
        pthread_rwlock_unlock(&discards);
        ring_unpin(&ring);
    }
    windows_set_pins(windows, WINDOWS_PINS_NEVER);
}

static void flips(bool never_move, const char *trace) {
    struct windows_config config = keeps_huge;
    config.never_move = never_move;
    config.trace = trace;
    struct fixture fixture = fixture_make(&config, PAGES);
    uint8_t *at = huge_memory(2);
    if (at == NULL) return left_out(&fixture);
    static struct writer writers[2];
    int disk = file_of(3);
    uint64_t state = 9;
    memset(at, 0, 2 * part_bytes);
    struct window *window = window_over(&fixture, at, 2 * PART);
    atomic_store(&stop, false);
    for (unsigned i = 0; i < 2; i++) {
        writers[i] = (struct writer){.at = at, .number = i};
        check(pthread_create(&writers[i].thread, NULL, write_words, &writers[i]) == 0, "a thread that writes");
    }
    time_t begun = time(NULL);
    for (unsigned i = 0; time(NULL) - begun < FLIP_SECONDS; i++) {
        const uint16_t from[] = {1, FROM, PART + 1, PART + 1};
        if (i % 8 == 0) windows_tune(fixture.windows, &(struct windows_tuning){.huge_from = from[draw(&state, 4)]});
        if (i % 3 == 0) discard_some(window, writers, &state);
        if (i % 64 == 63) read_by_device(at, disk, fixture.windows, writers, &state);
        struct window_result result = look(fixture.windows);
        check(result.status == WINDOW_OK, window_status_words(result.status));
        lender_trim(fixture.lender);
    }
    atomic_store(&stop, true);
    for (unsigned i = 0; i < 2; i++) pthread_join(writers[i].thread, NULL);
    struct windows_counts counts = counts_of(&fixture);
    printf("%" PRIu64 " writes, %" PRIu64 " lends, %" PRIu64 " zeros, %" PRIu64 " splits, %" PRIu64 " times whole again, %" PRIu64
           " times not; a hold at most %.2f ms\n",
           writers[0].writes + writers[1].writes, counts.lends, counts.zeros, counts.splits, counts.made_whole,
           counts.not_made_whole, 1e-6 * (double)counts.hold_most_ns);
    check(counts.splits > 2 && counts.made_whole > 2 && counts.lends > 0, "parts went to and fro");
    check(writers[0].wrong + writers[1].wrong == 0, "each word is as it was written last");
    check_mappings(&fixture, at, 2 * PART, 40);
    close(disk);
    fixture_end(&fixture, window);
}

static void all(void) {
    stays_or_splits(false);
    stays_or_splits(true);
    zeros();
    ends();
    small();
    becomes_whole();
    becomes_whole_over_frames();
    stays_split();
    refused();
    not_split();
    crowded();
    said();
    flips(false, NULL);
    flips(true, NULL);
}

int main(int count, char **words) {
    if (huge_memory(1) == NULL) {
        puts("left out: huge pages, of which this system gives none, or doesn't say so (Linux 6.7)\nparts: ok");
        return 0;
    }
    if (count == 3 && strcmp(words[1], "--trace") == 0) flips(false, words[2]);
    else all();
    puts(check_count() == 0 ? "parts: ok" : "parts: WRONG");
    return check_count() == 0 ? 0 : 1;
}
