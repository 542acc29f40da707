/*
 * Windows of threads in place of guests. Each writes words of its own and checks them, while a thread looks without a pause, pages
 * are discarded, pinned and swapped out, devices read into pinned pages, files are read by O_DIRECT, pages are cut out and others mapped in
 * their place, windows and lenders come and go, and children are forked. There are fewer frames than pages. With --pins 1 windows don't know
 * which pages are pinned. With --huge N parts of the windows may be huge pages, which are split when N of their pages could be shared, or
 * when any could, or become whole again. With --percent N looks have a part of a processor, and sleep between their tasks. With --trace the
 * lender stays.
 *
 *     stress [--writes N] [--seconds N] [--trace FILE] [--move 0] [--scan 0] [--pins 1] [--rest N] [--pages N] [--seed N] [--huge N]
 *            [--percent N]
 *
 * Ends after so many checked writes, or so many seconds, but not before a page was lent and written. Prints figures, and "stress: ok" (status
 * 0) or "stress: WRONG" (1).
 */
#define _GNU_SOURCE
#include "../lender/domain_lender.h"
#include "../window.h"
#include "check.h"
#include "looks.h"
#include "ring.h"
#include "slots.h"
#include <errno.h>
#include <fcntl.h>
#include <inttypes.h>
#include <pthread.h>
#include <stdatomic.h>
#include <string.h>
#include <sys/mman.h>
#include <sys/wait.h>
#include <time.h>
#include <unistd.h>

enum { GUESTS = 3, WRITERS = 2, VALUES = 4, CHECKED = 8, PAGES_MOST = 4096, DEVICE_VALUE = 7, DIRECT_MOST = 16 };

struct guest {
    uint8_t *at;
    struct window *window;
    pthread_rwlock_t lock; /* for writing: pages are discarded, or the window is freed */
};

struct writer {
    struct guest *guest;
    unsigned number;
    uint32_t hot;
    uint64_t state, wrong, writes;
    uint64_t values[PAGES_MOST]; /* of its word of each page */
    pthread_t thread;
};

static struct windows *windows;
static struct lender *lender;
static struct guest guests[GUESTS];
static struct writer writers[GUESTS][WRITERS];
static unsigned pages = 512;
static uint64_t writes_most = 2000000, seed = 1;
static atomic_bool stop;
static atomic_ullong writes_done;
static atomic_uint failures;
static bool pins_unknown, has_ring = true;
static uint16_t huge_from;
static bool is_recorded, keeps_copies; /* copies: of pages that have left their window, which a device might have pinned */
static int disk, direct = -1;          /* direct: a file that is open for O_DIRECT */
static uint64_t device_reads, page_outs, transfers, unmaps, cuts, exchanges;

static volatile uint64_t *word_in(const struct writer *writer, uint32_t page) {
    return (volatile uint64_t *)(void *)(writer->guest->at + (size_t)page * WINDOW_PAGE_BYTES) + 64 * writer->number + 7;
}

static void check_word(struct writer *writer, uint32_t page) {
    uint64_t found = guest_load(word_in(writer, page));
    if (found == writer->values[page]) return;
    if (writer->wrong++ == 0)
        fprintf(stderr, "guest %td, writer %u, page %" PRIu32 ": %" PRIu64 ", not %" PRIu64 "\n", writer->guest - guests,
                writer->number, page, found, writer->values[page]);
}

/* Mostly a page of the few that are written for some time, so that others are idle. */
static uint32_t choose(struct writer *writer) {
    enum { HOT = 24, MOVES = 4096, ELSEWHERE = 500 };
    if (draw(&writer->state, MOVES) == 0) writer->hot = (uint32_t)draw(&writer->state, pages);
    if (draw(&writer->state, ELSEWHERE) == 0) return (uint32_t)draw(&writer->state, pages);
    return (writer->hot + (uint32_t)draw(&writer->state, HOT)) % pages;
}

/* Some writes and checks, between which nothing is discarded. */
static void write_some(struct writer *writer) {
    enum { SOME = 64 };
    pthread_rwlock_rdlock(&writer->guest->lock);
    for (int i = 0; i < SOME; i++) {
        uint32_t page = choose(writer);
        check_word(writer, page);
        writer->values[page] = draw(&writer->state, VALUES);
        guest_store(word_in(writer, page), writer->values[page]);
        for (int j = 0; j < CHECKED; j++) check_word(writer, (uint32_t)draw(&writer->state, pages));
    }
    pthread_rwlock_unlock(&writer->guest->lock);
    writer->writes += SOME;
    atomic_fetch_add(&writes_done, SOME);
}

static void *write_words(void *opaque) {
    struct writer *writer = opaque;
    const struct timespec rest = {.tv_nsec = 200000};
    while (!atomic_load(&stop)) {
        write_some(writer);
        if (draw(&writer->state, 8) == 0) nanosleep(&rest, NULL); /* (else no page is ever idle) */
    }
    return NULL;
}

static atomic_bool has_shared; /* a page was lent, and one was written that had been */

static int count_slot(void *unused, uint32_t page, uint64_t slot, bool shown) {
    (void)unused, (void)page, (void)slot, (void)shown;
    return 1;
}

/* Windows have as many slots as the lender gave. By the thread that looks. */
static void check_slots(void) {
    struct pageshare_domain_totals totals;
    struct lender_counts lent;
    const int slots = each_slot(windows, count_slot, NULL);
    lender_count(lender, &totals, &lent);
    check((uint32_t)slots == totals.slots, "windows have the lender's slots");
}

static void make_lender(void) {
    const struct lender_config lending = {
        .slots = GUESTS * pages, .frames = GUESTS * pages / 2, .recent = 4 * GUESTS * pages, .hash = PAGESHARE_FOLD};
    check(lender_make(&lender, &lending).status == LENDER_OK, "a lender is made");
    must(windows_attach(windows, lender_interface(lender)), "windows_attach");
}

/* The lender goes, and another one comes. */
static void exchange_lenders(void) {
    windows_detach(windows);
    lender_free(lender);
    must(look(windows), "a look without a lender");
    make_lender();
    exchanges++;
}

static void *looks(void *opaque) {
    enum { CHECKS_APART = 4, EXCHANGES_APART = 16, FIRST_EXCHANGE = 10 };
    const struct timespec rest = {.tv_nsec = 100000};
    struct windows_counts counts;
    (void)opaque;
    for (unsigned i = 1; !atomic_load(&stop); i++) {
        if (i % CHECKS_APART == 0) check_slots();
        if (i % EXCHANGES_APART == FIRST_EXCHANGE && !is_recorded) exchange_lenders();
        struct window_result result = look(windows);
        if (result.status != WINDOW_OK && atomic_fetch_add(&failures, 1) < 5)
            fprintf(stderr, "look: %s: %s\n", window_status_words(result.status), strerror(result.cause));
        lender_trim(lender);
        windows_count(windows, &counts); /* (here, since looks write some counts without the lock) */
        if (counts.lends > 0 && counts.copied > 0) atomic_store(&has_shared, true);
        nanosleep(&rest, NULL);
    }
    return NULL;
}

/* Some pages of a guest. */
struct some {
    uint32_t first, count;
};
static struct some choose_some(uint64_t *state, uint32_t most) {
    struct some some = {.first = (uint32_t)draw(state, pages), .count = 1 + (uint32_t)draw(state, most)};
    if (some.count > pages - some.first) some.count = pages - some.first;
    return some;
}

static uint8_t *address_in(const struct guest *guest, uint32_t page) { return guest->at + (size_t)page * WINDOW_PAGE_BYTES; }

/* The writers hear what their words of a page are by now. */
static void note_value(const struct guest *guest, uint32_t page, uint64_t value) {
    for (unsigned i = 0; i < WRITERS; i++) writers[guest - guests][i].values[page] = value;
}

/* Which pages are the window's, and so are discarded with others. */
static bool are_its[PAGES_MOST];
static void find_its(const struct guest *guest, struct some some) {
    for (uint32_t page = some.first, end = 0; page < some.first + some.count; page = end) {
        bool is_its = false;
        end = page + (uint32_t)window_run(guest->window, page, some.first + some.count - page, &is_its);
        check(end > page && end <= some.first + some.count, "window_run");
        for (uint32_t i = page; i < end; i++) are_its[i] = is_its;
    }
}

static void note_discard(const struct guest *guest, struct some some) {
    for (uint32_t page = some.first; page < some.first + some.count; page++)
        if (are_its[page]) note_value(guest, page, 0);
}

/* Discards some pages, of which the writers hear. */
static void discard(struct guest *guest, uint64_t *state) {
    struct some some = choose_some(state, 32);
    pthread_rwlock_wrlock(&guest->lock);
    find_its(guest, some);
    must(window_discard(guest->window, some.first, some.count), "window_discard");
    note_discard(guest, some);
    pthread_rwlock_unlock(&guest->lock);
}

/* Something else is mapped in the place of pages, which leave their window. */
static void unmap(struct guest *guest, uint64_t *state) {
    const int kind = MAP_PRIVATE | MAP_ANONYMOUS | MAP_NORESERVE | MAP_FIXED;
    struct some some = choose_some(state, 8);
    uint8_t *at = address_in(guest, some.first);
    pthread_rwlock_wrlock(&guest->lock);
    int cause = windows_pause(windows);
    check(cause == 0, "windows_pause");
    if (cause == 0) {
        check(mmap(at, some.count * WINDOW_PAGE_BYTES, PROT_READ | PROT_WRITE, kind, -1, 0) == at, "something else is mapped");
        window_forget(guest->window, some.first, some.count);
        windows_resume(windows);
        for (uint32_t page = some.first; page < some.first + some.count; page++) note_value(guest, page, 0);
    }
    pthread_rwlock_unlock(&guest->lock);
    unmaps++;
}

/* Pages leave their window with what they contain. What isn't kept over frames is the guest's, who may discard it. */
static void cut(struct guest *guest, uint64_t *state) {
    struct some some = choose_some(state, 8);
    size_t kept = 0;
    must(window_cut(guest->window, some.first, some.count, &kept), "window_cut");
    cuts++;
    if (kept > 0) keeps_copies = true;
    if (kept > 0 || draw(state, 2) == 0) return;
    pthread_rwlock_wrlock(&guest->lock);
    check(madvise(address_in(guest, some.first), some.count * WINDOW_PAGE_BYTES, MADV_DONTNEED) == 0, "a discard by the guest");
    for (uint32_t page = some.first; page < some.first + some.count; page++) note_value(guest, page, 0);
    pthread_rwlock_unlock(&guest->lock);
}

static void pause_for(long milliseconds) {
    const struct timespec rest = {.tv_nsec = milliseconds * 1000000};
    nanosleep(&rest, NULL);
}

/* A transfer of some pages begins. Returns what ends it. */
static struct windows_transfer begin_of(const struct guest *guest, struct some some) {
    const struct iovec buffer = {address_in(guest, some.first), some.count * WINDOW_PAGE_BYTES};
    return windows_transfer_begin(windows, &buffer, 1);
}

/* A transfer is under way for a moment. */
static void pass(const struct guest *guest, uint64_t *state) {
    const struct windows_transfer place = begin_of(guest, choose_some(state, 16));
    pause_for(1);
    windows_transfer_end(windows, place);
}

/* The range is the guest's, and gets the same advice everywhere: what was mapped in a window's place has none. */
static void make_window(struct guest *guest) {
    const size_t bytes = (size_t)pages * WINDOW_PAGE_BYTES;
    madvise(guest->at, bytes, MADV_DONTFORK);
    madvise(guest->at, bytes, huge_from > 0 ? MADV_HUGEPAGE : MADV_NOHUGEPAGE);
    must(window_make(&guest->window, windows, guest->at, bytes, WINDOW_NO_CHILD), "window_make");
}

/* Ends a window under its writers, with its content, and makes it anew; or without. With copies that may be pinned it goes on. */
static void renew(struct guest *guest, uint64_t *state) {
    const struct some all = {.first = 0, .count = pages};
    bool drops = draw(state, 2) == 0;
    if (drops) pthread_rwlock_wrlock(&guest->lock);
    if (drops) find_its(guest, all);
    struct window_result freed = window_free(guest->window, drops ? WINDOW_DROP : WINDOW_TAKE_HOME);
    if (!drops && (pins_unknown || keeps_copies) && freed.status == WINDOW_PINNED) return;
    must(freed, "window_free");
    make_window(guest);
    if (drops) note_discard(guest, all);
    if (drops) pthread_rwlock_unlock(&guest->lock);
}

static void fork_child(void) {
    pid_t child = fork();
    check(child >= 0, "a child is made");
    if (child == 0) _exit(0);
    if (child > 0) waitpid(child, NULL, 0);
}

/* A device pins a page, and reads into it while others write to it before and after. */
static void read_by_device(struct guest *guest, uint64_t *state) {
    struct ring ring;
    uint32_t page = (uint32_t)draw(state, pages);
    uint8_t *at = address_in(guest, page);
    const struct windows_transfer place = begin_of(guest, (struct some){.first = page, .count = pins_unknown ? 0 : 1});
    has_ring = ring_pin(&ring, at, WINDOW_PAGE_BYTES);
    if (has_ring) {
        pause_for(3);
        pthread_rwlock_wrlock(&guest->lock);
        check(ring_read(&ring, disk, at, WINDOW_PAGE_BYTES), "a device reads");
        note_value(guest, page, DEVICE_VALUE);
        pthread_rwlock_unlock(&guest->lock);
        ring_unpin(&ring);
        device_reads++;
    }
    windows_transfer_end(windows, place);
}

/* A file is read by O_DIRECT to pages of which nothing else is known. They may be of all kinds, also such as have left. */
static void transfer(struct guest *guest, uint64_t *state) {
    enum { TIMES = 4 };
    struct some some = choose_some(state, DIRECT_MOST);
    size_t bytes = some.count * WINDOW_PAGE_BYTES;
    const struct windows_transfer place = begin_of(guest, some);
    pthread_rwlock_wrlock(&guest->lock);
    for (int i = 0; i < TIMES; i++)
        check(pread(direct, address_in(guest, some.first), bytes, 0) == (ssize_t)bytes, "a file is read by O_DIRECT");
    for (uint32_t page = some.first; page < some.first + some.count; page++) note_value(guest, page, DEVICE_VALUE);
    pthread_rwlock_unlock(&guest->lock);
    windows_transfer_end(windows, place);
    transfers++;
}

/* The system swaps pages out, if it has swap. */
static void page_out(struct guest *guest, uint64_t *state) {
    struct some some = choose_some(state, 64);
    madvise(address_in(guest, some.first), (size_t)some.count * WINDOW_PAGE_BYTES, MADV_PAGEOUT);
    page_outs++;
}

/* Devices may pin for a moment, if they don't always. Pages leave their window meanwhile: copies of theirs stay over frames. */
static void may_pin_for_a_moment(struct guest *guest, uint64_t *state) {
    if (!pins_unknown) windows_set_pins(windows, WINDOWS_PINS_POSSIBLE);
    pause_for(2);
    cut(guest, state);
    if (!pins_unknown) windows_set_pins(windows, WINDOWS_PINS_NEVER);
}

/* No huge pages are wanted for a moment. */
static void say_huge(struct guest *guest) {
    check(window_say_huge(guest->window, 0, pages, false) == 0, "window_say_huge");
    pause_for(2);
    check(window_say_huge(guest->window, 0, pages, true) == 0, "window_say_huge");
}

/* Parts are split as they were to be, or each of which any page could be shared; or next to none is any more, and many become whole. */
static void tune(uint64_t *state) {
    const uint16_t from[] = {huge_from, 1, WINDOWS_HUGE_PAGES + 1};
    windows_tune(windows, &(struct windows_tuning){.huge_from = from[draw(state, 3)]});
}

static void disturb(uint64_t *state) {
    struct guest *guest = &guests[draw(state, GUESTS)];
    uint64_t what = draw(state, 120);
    if (huge_from > 0 && draw(state, 24) == 0) tune(state);
    if (huge_from > 0 && draw(state, 48) == 0) say_huge(guest);
    if (what < 40) discard(guest, state);
    else if (what >= 110 && has_ring) read_by_device(guest, state);
    else if (what < 70) pass(guest, state);
    else if (what < 74) renew(guest, state);
    else if (what < 78) fork_child();
    else if (what < 88) page_out(guest, state);
    else if (what < 98 && direct >= 0) transfer(guest, state);
    else if (what < 101) unmap(guest, state);
    else if (what < 104) cut(guest, state);
    else if (what < 106) may_pin_for_a_moment(guest, state);
    pause_for(1);
}

/* Memory for a guest. That which may be huge pages begins and ends amid one. */
static uint8_t *memory_of(size_t bytes) {
    const int kind = MAP_PRIVATE | MAP_ANONYMOUS | MAP_NORESERVE;
    const size_t huge = (size_t)WINDOWS_HUGE_PAGES * WINDOW_PAGE_BYTES, before = huge - 40 * (size_t)WINDOW_PAGE_BYTES;
    uint8_t *at = mmap(NULL, bytes + 2 * huge, PROT_READ | PROT_WRITE, kind, -1, 0);
    check(at != MAP_FAILED, "memory for a guest");
    if (huge_from == 0) return at;
    at += (huge - (uintptr_t)at % huge) % huge;
    madvise(at, bytes + huge, MADV_HUGEPAGE);
    memset(at, 0, bytes + huge);
    return at + before;
}

static void make_guests(void) {
    for (unsigned i = 0; i < GUESTS; i++) {
        size_t bytes = (size_t)pages * WINDOW_PAGE_BYTES;
        guests[i].at = memory_of(bytes);
        pthread_rwlock_init(&guests[i].lock, NULL);
        make_window(&guests[i]);
        for (unsigned j = 0; j < WRITERS; j++)
            writers[i][j] = (struct writer){.guest = &guests[i], .number = j, .state = seed + i * WRITERS + j};
    }
}

/* A file for O_DIRECT, full of one word; -1 if no folder has such files. */
static int make_direct(void) {
    static const char *const folders[] = {".", "/var/tmp", "/tmp"};
    static uint64_t words[DIRECT_MOST * WINDOW_PAGE_BYTES / sizeof(uint64_t)] __attribute__((aligned(WINDOW_PAGE_BYTES)));
    for (size_t i = 0; i < sizeof words / sizeof words[0]; i++) words[i] = DEVICE_VALUE;
    for (size_t i = 0; i < sizeof folders / sizeof folders[0]; i++) {
        int file = open(folders[i], O_RDWR | O_TMPFILE | O_DIRECT | O_CLOEXEC, 0600);
        if (file >= 0 && write(file, words, sizeof words) == sizeof words) return file;
        if (file >= 0) close(file);
    }
    return -1;
}

static void make(const struct windows_config *config) {
    must(windows_make(&windows, config), "windows_make");
    make_lender();
    const uint64_t word = DEVICE_VALUE;
    disk = memfd_create("disk", MFD_CLOEXEC);
    for (size_t i = 0; i < WINDOW_PAGE_BYTES / sizeof word; i++) check(write(disk, &word, sizeof word) == sizeof word, "a disk");
    direct = make_direct();
    make_guests();
}

/* It takes a minute more at most until a page was lent and written: the computer may be busy. */
static bool goes_on(time_t begun, uint64_t seconds) {
    enum { MORE_SECONDS = 60 };
    const uint64_t spent = (uint64_t)(time(NULL) - begun);
    if (atomic_load(&writes_done) < writes_most && spent < seconds) return true;
    return !atomic_load(&has_shared) && spent < seconds + MORE_SECONDS;
}

static uint64_t end(void) {
    uint64_t wrong = 0;
    struct pageshare_domain_totals totals;
    struct lender_counts lent;
    struct windows_counts counts;
    for (unsigned i = 0; i < GUESTS * WRITERS; i++) {
        struct writer *writer = &writers[i / WRITERS][i % WRITERS];
        for (uint32_t page = 0; page < pages; page++) check_word(writer, page);
        wrong += writer->wrong;
    }
    windows_count(windows, &counts);
    lender_count(lender, &totals, &lent);
    printf("%llu checked writes, %" PRIu64 " lends, %" PRIu64 " copies found, %" PRIu64 " zeros, %" PRIu64
           " changed before they were mapped\n",
           (unsigned long long)atomic_load(&writes_done), counts.lends, counts.copied, counts.zeros, counts.changed);
    printf("%" PRIu64 " discarded, %" PRIu64 " taken home, %" PRIu64 " not held, %" PRIu64
           " without a frame; %.1f us a lend to hold and map, a hold at most %.0f us\n",
           counts.discarded, counts.taken_home, counts.pinned, counts.no_frame,
           1e-3 * (double)counts.map_ns / (double)(counts.lends + counts.zeros + 1), 1e-3 * (double)counts.hold_most_ns);
    printf("%" PRIu64 " reads by a device%s, %" PRIu64 " times pages were to be swapped out\n", device_reads,
           has_ring ? "" : " (left out: there is no io_uring)", page_outs);
    printf("%" PRIu64 " reads by O_DIRECT%s, %" PRIu64 " times others were mapped, %" PRIu64 " times pages were cut out, %" PRIu64
           " times another lender\n",
           transfers, direct >= 0 ? "" : " (left out: no file can be)", unmaps, cuts, exchanges);
    printf("%zu parts whole, %" PRIu64 " were split, %" PRIu64 " became whole, %" PRIu64 " couldn't\n", counts.parts_whole,
           counts.splits, counts.made_whole, counts.not_made_whole);
    printf("%" PRIu64 " looks, %zu lent now, %" PRIu32 " frames, %zu mappings, %u failures\n", counts.looks, counts.lent,
           totals.frames, counts.mappings, atomic_load(&failures));
    check(counts.lends > 0 && counts.copied > 0, "pages were lent, and copied");
    for (unsigned i = 0; i < GUESTS; i++) must(window_free(guests[i].window, WINDOW_DROP), "window_free");
    must(look(windows), "the last look");
    lender_count(lender, &totals, &lent);
    check(totals.slots == 0 && totals.frames == 0, "no slot is left");
    check(lender_trim(lender) == 0, "all frames are given back");
    windows_free(windows);
    lender_free(lender);
    return wrong;
}

int main(int count, char **words) {
    struct windows_config config = {.pins = WINDOWS_PINS_NEVER};
    uint64_t seconds = 20, state;
    for (int i = 1; i + 1 < count; i += 2) {
        if (strcmp(words[i], "--writes") == 0) writes_most = strtoull(words[i + 1], NULL, 10);
        if (strcmp(words[i], "--seconds") == 0) seconds = strtoull(words[i + 1], NULL, 10);
        if (strcmp(words[i], "--pages") == 0) pages = (unsigned)strtoul(words[i + 1], NULL, 10);
        if (strcmp(words[i], "--seed") == 0) seed = strtoull(words[i + 1], NULL, 10);
        if (strcmp(words[i], "--trace") == 0) config.trace = words[i + 1];
        if (strcmp(words[i], "--move") == 0) config.never_move = true;
        if (strcmp(words[i], "--scan") == 0) config.never_scan = true;
        if (strcmp(words[i], "--rest") == 0) config.tuning.rest_most = (uint8_t)strtoul(words[i + 1], NULL, 10);
        if (strcmp(words[i], "--percent") == 0) config.percent = (unsigned)strtoul(words[i + 1], NULL, 10);
        if (strcmp(words[i], "--huge") == 0) huge_from = (uint16_t)strtoul(words[i + 1], NULL, 10);
        if (strcmp(words[i], "--pins") == 0) config.pins = WINDOWS_PINS_POSSIBLE, pins_unknown = true;
    }
    if (pages == 0 || pages > PAGES_MOST) return 2;
    is_recorded = config.trace != NULL;
    config.tuning.huge_from = huge_from;
    config.never_wait = huge_from > 0;
    state = seed * 77;
    make(&config);
    pthread_t looker;
    check(pthread_create(&looker, NULL, looks, NULL) == 0, "a thread that looks");
    for (unsigned i = 0; i < GUESTS * WRITERS; i++) {
        struct writer *writer = &writers[i / WRITERS][i % WRITERS];
        check(pthread_create(&writer->thread, NULL, write_words, writer) == 0, "a thread that writes");
    }
    time_t begun = time(NULL);
    while (goes_on(begun, seconds)) disturb(&state);
    atomic_store(&stop, true);
    pthread_join(looker, NULL);
    for (unsigned i = 0; i < GUESTS * WRITERS; i++) pthread_join(writers[i / WRITERS][i % WRITERS].thread, NULL);
    uint64_t wrong = end();
    bool right = wrong == 0 && check_count() == 0;
    puts(right ? "stress: ok" : "stress: WRONG");
    return right ? 0 : 1;
}
