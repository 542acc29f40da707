/*
 * Pages that leave their window, and what may be pinned, one matter after the other: see main. Prints "leaves: ok" (status 0) or what
 * isn't so (status 1).
 */
#define _GNU_SOURCE
#include "fixture.h"
#include "ring.h"
#include <errno.h>
#include <sys/syscall.h>

enum { PAGES = 64, HALF = PAGES / 2 };

static uint8_t *mapped_at(uint8_t *at, size_t pages) {
    return mmap(at, pages * PAGE, PROT_READ | PROT_WRITE, MAP_PRIVATE | MAP_ANONYMOUS | MAP_FIXED, -1, 0);
}

/* Pages that were cut out keep their content, whatever becomes of the rest. */
static void stays(enum window_end end) {
    FIXTURE(&never_pinned, PAGES, PAGES);
    size_t kept = 1;
    fill(at, PAGES, 1);
    check(look_until(&fixture, PAGES) == PAGES, "all pages are lent");
    must(window_cut(window, 0, HALF, &kept), "window_cut");
    check(kept == 0 && are_bytes(at, 1) && window_page_is(window, 0) == WINDOW_PAGE_OUT, "pages that leave keep their content");
    look_often(&fixture, 8);
    check(counts_of(&fixture).lent == HALF, "the others are lent still");
    must(window_discard(window, 0, PAGES), "window_discard");
    check(are_bytes(at + (HALF - 1) * PAGE, 1) && are_bytes(at + HALF * PAGE, 0), "a discard leaves them alone");
    must(window_advise(window, MADV_DONTDUMP), "window_advise");
    must(window_free(window, end), "window_free");
    check(are_bytes(at, 1) && are_bytes(at + (HALF - 1) * PAGE, 1), "and so does the window's end");
    fixture_free(&fixture);
    munmap(at, PAGES * PAGE);
}

/* Unmaps pages of a window, as a monitor does it. */
static void unmap(struct fixture *fixture, struct window *window, uint8_t *at, size_t first, size_t count) {
    check(windows_pause(fixture->windows) == 0, "windows_pause");
    check(munmap(at + first * PAGE, count * PAGE) == 0, "munmap");
    window_forget(window, first, count);
    windows_resume(fixture->windows);
}

/* Where pages were unmapped nothing is touched, and what stands there later isn't the window's. It may become another one's. */
static void holes(void) {
    struct fixture fixture = fixture_make(&never_pinned, PAGES);
    uint8_t *at = memory(PAGES);
    struct window *window = window_over(&fixture, at, PAGES), *anew;
    fill(at, PAGES, 1);
    check(look_until(&fixture, PAGES) == PAGES, "all pages are lent");
    unmap(&fixture, window, at, 8, HALF);
    look_often(&fixture, 8);
    check(counts_of(&fixture).lent == PAGES - HALF, "the others are lent still");
    must(window_advise(window, MADV_DONTFORK), "advice of a window with a hole");
    must(window_discard(window, 0, PAGES), "a discard of a window with a hole");
    check(mapped_at(at + 8 * PAGE, HALF) == at + 8 * PAGE, "something else stands in the hole");
    memset(at + 8 * PAGE, 'x', HALF * PAGE);
    must(window_discard(window, 0, PAGES), "window_discard");
    look_often(&fixture, 8);
    check(are_bytes(at + 8 * PAGE, 'x'), "it isn't touched");
    must(window_make(&anew, fixture.windows, at + 8 * PAGE, HALF * PAGE, WINDOW_NO_CHILD), "a window in the hole");
    check(look_until(&fixture, HALF) == HALF && are_bytes(at + 8 * PAGE, 'x'), "its pages are lent");
    must(window_free(window, WINDOW_TAKE_HOME), "window_free");
    check(are_bytes(at + 8 * PAGE, 'x') && are_bytes(at, 0), "each window has its own end");
    must(window_free(anew, WINDOW_TAKE_HOME), "window_free");
    check(are_bytes(at + 8 * PAGE, 'x'), "and so has the other one");
    fixture_free(&fixture);
    munmap(at, PAGES * PAGE);
}

/* What a device has pinned stays where it is: what the device reads later arrives there. */
static void device_reads(void) {
    FIXTURE(&maybe_pinned, PAGES, PAGES);
    struct ring ring;
    int disk = file_of('d');
    size_t kept = 0;
    fill(at, PAGES, 1);
    if (look_until(&fixture, PAGES) != PAGES || !ring_pin(&ring, at + 8 * PAGE, PAGE)) {
        puts("left out: pages that a device has pinned, since there is no io_uring, or pages can't be moved");
    } else {
        must(window_cut(window, 0, HALF, &kept), "window_cut");
        check(kept == 1, "one page stays over its frame: the pinned one");
        check(window_free(window, WINDOW_TAKE_HOME).status == WINDOW_PINNED, "the window can't end");
        check(window_advise(window, MADV_DOFORK).status == WINDOW_PINNED, "and no child may have it");
        if (syscall(SYS_mlock, at + 8 * PAGE, PAGE) == 0) { /* (a sanitizer makes mlock do nothing) */
            check(window_discard(window, 8, 1).status == WINDOW_LOCKED, "locked pages aren't discarded, as by the system");
            check(syscall(SYS_munlock, at + 8 * PAGE, PAGE) == 0, "munlock");
        }
        check(mprotect(at + 8 * PAGE, PAGE, PROT_READ) == 0 && mprotect(at + 8 * PAGE, PAGE, PROT_READ | PROT_WRITE) == 0,
              "it may be protected");
        check(ring_read(&ring, disk, at + 8 * PAGE, PAGE) && are_bytes(at + 8 * PAGE, 'd'), "what the device reads arrives");
        check(are_bytes(at, 1) && are_bytes(at + 9 * PAGE, 1), "the others read as before");
        ring_unpin(&ring);
        check(mprotect(at + 8 * PAGE, PAGE, PROT_READ) == 0, "it is protected");
        must(window_discard(window, 8, 1), "window_discard");
        check(are_bytes(at + 8 * PAGE, 0), "a discard shows zeros");
        check(pread(disk, at + 8 * PAGE, 1, 0) == -1 && errno == EFAULT, "under the protection that it has");
    }
    close(disk);
    must(window_free(window, WINDOW_TAKE_HOME), "window_free");
    fixture_free(&fixture);
    munmap(at, PAGES * PAGE);
}

/* Processor time of discards of every other page of some, in their window or not; or of reading in which mapping each is. */
static uint64_t time_of(struct window *window, size_t first, size_t count, bool is_discard) {
    struct mapping_facts facts;
    uint64_t begun = clock_spent_ns();
    for (size_t page = first; page < first + count; page += 2) {
        if (is_discard) must(window_discard(window, page, 1), "window_discard");
        else check(mapping_read(&facts, window->at + page * PAGE, 1) == 0, "mapping_read");
    }
    return clock_spent_ns() - begun;
}

/* Discards of copies that stay over frames don't read all mappings, unless the caller may have said something of some. */
static void many_stay(void) {
    enum { MANY = 4096, SOME = 64 };
    FIXTURE(&maybe_pinned, MANY, MANY);
    size_t kept = 0;
    for (uint32_t page = 0; page < MANY; page++) memcpy(at + (size_t)page * PAGE, &(uint32_t){page / 2 % 64 + 1}, 4);
    look_often(&fixture, 20);
    for (size_t page = 0; page < MANY; page++) at[page * PAGE + 8] = 7;
    must(window_leave(window, 0, MANY, &kept), "window_leave");
    struct mapping_facts facts;
    if (kept < MANY / 2 || mapping_ask(&facts, at, 1) != 0) {
        puts("left out: discards of many copies over frames, since pages can't be moved, or the system isn't asked about "
             "mappings");
    } else {
        uint64_t reading = time_of(window, MANY - SOME, SOME, false), discards = time_of(window, MANY - SOME, SOME, true);
        check(discards < reading / 2, "a discard of what stays takes less time than reading all mappings");
        check(are_bytes(at + (MANY - SOME) * PAGE, 0) && at[(MANY - SOME + 1) * PAGE + 8] == 7, "and shows zeros");
        must(window_cut(window, 0, 1, NULL), "window_cut");
        check(mprotect(at + 3 * PAGE, PAGE, PROT_READ) == 0, "a page is protected");
        must(window_discard(window, 3, 1), "window_discard");
        check(mapping_read(&facts, at + 3 * PAGE, 1) == 0 && facts.protection == PROT_READ, "and stays so");
    }
    must(window_discard(window, 0, MANY), "window_discard");
    must(window_free(window, WINDOW_TAKE_HOME), "window_free");
    fixture_free(&fixture);
    munmap(at, MANY * PAGE);
}

static enum windows_pins found_pins;
static enum windows_pins found(void *asked) {
    ++*(unsigned *)asked;
    return found_pins;
}

/* Devices that may pin are looked for, and a copy stays where it is from then on. */
static void pins_are_found(void) {
    unsigned asked = 0;
    const struct windows_config config = {.pins = WINDOWS_PINS_NEVER, .find_pins = found, .find_pins_opaque = &asked};
    FIXTURE(&config, PAGES, PAGES);
    size_t kept = 0;
    found_pins = WINDOWS_PINS_NEVER;
    fill(at, PAGES, 1);
    check(look_until(&fixture, PAGES) == PAGES && asked > 0, "all pages are lent while nobody pins");
    at[5 * PAGE] = 9;
    found_pins = WINDOWS_PINS_POSSIBLE;
    must(window_cut(window, 0, HALF, &kept), "window_cut");
    check(kept == 1, "a copy stays where it is");
    at[40 * PAGE] = 9;
    look_often(&fixture, 8);
    at[40 * PAGE] = 1;
    look_often(&fixture, 8);
    check(window_page_is(window, 40) == WINDOW_PAGE_PRIVATE, "and isn't lent any more");
    must(window_discard(window, 0, PAGES), "window_discard");
    must(window_free(window, WINDOW_TAKE_HOME), "window_free");
    fixture_free(&fixture);
    munmap(at, PAGES * PAGE);
}

static struct windows_transfer begin_transfer(struct fixture *fixture, uint8_t *at, size_t bytes) {
    return windows_transfer_begin(fixture->windows, &(struct iovec){at, bytes}, 1);
}

/* While a transfer by O_DIRECT is under way its pages aren't held, nor their slots released; and then they are. */
static void transfers(void) {
    FIXTURE(&never_pinned, PAGES, PAGES);
    size_t kept = 0;
    fill(at, PAGES, 1);
    check(look_until(&fixture, PAGES) == PAGES, "all pages are lent");
    memset(at, 1, 4 * PAGE);
    const struct windows_transfer empty = begin_transfer(&fixture, at, 0),
                                  begun = begin_transfer(&fixture, at + PAGE + 100, PAGE);
    windows_transfer_end(fixture.windows, empty);
    check(look_until(&fixture, PAGES - 2) == PAGES - 2, "all are lent again but for the two of the transfer");
    check(slots_of(&fixture) == PAGES, "whose slots aren't released");
    must(window_cut(window, 0, 4, &kept), "window_cut");
    check(kept == 2 && are_bytes(at + PAGE, 1), "these stay where they are");
    windows_transfer_end(fixture.windows, begun);
    must(window_discard(window, 0, PAGES), "window_discard");
    must(window_free(window, WINDOW_TAKE_HOME), "window_free");
    fixture_free(&fixture);
    munmap(at, PAGES * PAGE);
}

/* However many are under way, with however many buffers each, only their pages are left alone, also where a window is made meanwhile. */
static void many_transfers(void) {
    enum { CALLS = 12, BUFFERS = 1024 };
    struct fixture fixture = fixture_make(&never_pinned, PAGES);
    uint8_t *at = memory(PAGES);
    struct iovec buffers[BUFFERS];
    struct windows_transfer begun[CALLS];
    fill(at, PAGES, 1);
    for (size_t i = 0; i < BUFFERS; i++) buffers[i] = (struct iovec){at + i % HALF * 2 * PAGE + i % 7, 16};
    struct window *window = NULL, *early = window_over(&fixture, at, HALF);
    for (size_t i = 0; i < CALLS; i++) begun[i] = windows_transfer_begin(fixture.windows, buffers, BUFFERS);
    window = window_over(&fixture, at + HALF * PAGE, HALF);
    check(look_until(&fixture, HALF) == HALF, "every other page is lent");
    look_often(&fixture, 4);
    for (size_t page = 0; page < HALF; page++)
        check(window_page_is(page % 2 == 0 ? early : window, page) == (page % 2 == 0 ? WINDOW_PAGE_PRIVATE : WINDOW_PAGE_LENT),
              "only pages of transfers aren't");
    for (size_t i = 1; i < CALLS; i++) windows_transfer_end(fixture.windows, begun[i]);
    look_often(&fixture, 12);
    check(counts_of(&fixture).lent == HALF, "one of them keeps its pages");
    windows_transfer_end(fixture.windows, begun[0]);
    check(look_until(&fixture, PAGES) == PAGES, "after the last one all pages are lent");
    must(window_free(early, WINDOW_TAKE_HOME), "window_free");
    must(window_free(window, WINDOW_TAKE_HOME), "window_free");
    fixture_free(&fixture);
    munmap(at, PAGES * PAGE);
}

/* Where a page has more than can be counted, some are anywhere for all that is known: then no copy over a frame is held. */
static void uncounted_transfers(void) {
    enum { BUFFERS = 1024, CALLS = 65 };
    struct fixture fixture = fixture_make(&never_pinned, PAGES);
    uint8_t *at = memory(PAGES);
    struct iovec buffers[BUFFERS];
    struct windows_transfer begun[CALLS];
    struct window *window = window_over(&fixture, at, PAGES);
    fill(at, PAGES, 1);
    check(look_until(&fixture, PAGES) == PAGES, "all pages are lent");
    for (size_t i = 0; i < BUFFERS; i++) buffers[i] = (struct iovec){at, 1};
    for (size_t i = 0; i < CALLS; i++) begun[i] = windows_transfer_begin(fixture.windows, buffers, BUFFERS);
    memset(at + 40 * PAGE, 1, PAGE);
    look_often(&fixture, 12);
    check(window_page_is(window, 40) == WINDOW_PAGE_PRIVATE, "with more transfers of a page than can be counted no copy is held");
    for (size_t i = 0; i < CALLS; i++) windows_transfer_end(fixture.windows, begun[i]);
    look_often(&fixture, 12);
    check(window_page_is(window, 40) == WINDOW_PAGE_LENT, "afterwards it is");
    must(window_free(window, WINDOW_TAKE_HOME), "window_free");
    fixture_free(&fixture);
    munmap(at, PAGES * PAGE);
}

/* Mappings are counted as the system has them, also those of memory that was moved home. */
static void mappings(void) {
    enum { MANY = 1024 };
    FIXTURE(&never_pinned, MANY, MANY);
    for (uint32_t i = 0; i < MANY; i++) memcpy(at + i * PAGE, &(uint32_t){i % 2 == 0 ? 1 : i + 1000}, 4);
    look_often(&fixture, 12);
    must(window_advise(window, MADV_DOFORK), "window_advise");
    size_t counted = counts_of(&fixture).mappings, there = mappings_in(at, MANY);
    check(there > MANY / 2 && counted <= there + 2 && there <= counted + 2, "as many are counted as there are");
    must(window_discard(window, 0, MANY), "window_discard");
    must(look(fixture.windows), "windows_look");
    check(counts_of(&fixture).mappings <= 4 && mappings_in(at, MANY) <= 4, "what was moved is one mapping once it is given up");
    fixture_end(&fixture, window);
    munmap(at, MANY * PAGE);
}

/* Pages in a row that are in several mappings are held all the same. */
static void several_mappings(void) {
    struct fixture fixture = fixture_make(&never_pinned, PAGES);
    uint8_t *at = memory(PAGES);
    for (size_t i = 0; i < PAGES; i += 2) {
        uint8_t *page = memory(1);
        *page = 1; /* (so that it becomes no mapping with what is beside it) */
        check(mremap(page, PAGE, PAGE, MREMAP_MAYMOVE | MREMAP_FIXED, at + i * PAGE) == at + i * PAGE, "mremap");
    }
    struct window *window = window_over(&fixture, at, PAGES);
    fill(at, PAGES, 1);
    check(look_until(&fixture, PAGES) == PAGES && counts_of(&fixture).pinned == 0,
          "all pages are lent, and none counts as pinned");
    must(window_free(window, WINDOW_TAKE_HOME), "window_free");
    check(are_bytes(at, 1) && are_bytes(at + (PAGES - 1) * PAGE, 1), "all read as before");
    fixture_free(&fixture);
    munmap(at, PAGES * PAGE);
}

/* A lender that writes to a page of the window after it was lent. */
struct meddler {
    const struct window_lender *lender;
    uint8_t *page;
};
static int meddle_ask(void *opaque, const uint32_t *pages, const uint64_t *fingerprints, const bool *passing, size_t count,
                      unsigned char *seen) {
    const struct meddler *meddler = opaque;
    return meddler->lender->ask(meddler->lender->opaque, pages, fingerprints, passing, count, seen);
}
static int meddle_lend(void *opaque, const uint32_t *pages, size_t count, struct window_loan *loans) {
    const struct meddler *meddler = opaque;
    int cause = meddler->lender->lend(meddler->lender->opaque, pages, count, loans);
    if (meddler->page != NULL) meddler->page[7] = 'w';
    return cause;
}
static int meddle_release(void *opaque, const uint64_t *slots, size_t count) {
    const struct meddler *meddler = opaque;
    return meddler->lender->release(meddler->lender->opaque, slots, count);
}

/* A page that shows a frame of a lender that is gone is lent anew, or discarded, or written meanwhile: its slot isn't lost. */
static void lent_anew(void) {
    FIXTURE(&never_pinned, PAGES, PAGES);
    struct meddler meddler = {.lender = lender_interface(fixture.lender), .page = at + 3 * PAGE};
    struct window_lender lender = *meddler.lender;
    lender.opaque = &meddler;
    lender.ask = meddle_ask;
    lender.lend = meddle_lend;
    lender.release = meddle_release;
    fill(at, PAGES, 1);
    check(look_until(&fixture, PAGES) == PAGES, "all pages are lent");
    windows_detach(fixture.windows);
    lender_free(fixture.lender);
    const struct lender_config lending = {.slots = PAGES, .frames = PAGES, .recent = PAGES, .hash = PAGESHARE_FOLD};
    check(lender_make(&fixture.lender, &lending).status == LENDER_OK, "another lender");
    meddler.lender = lender_interface(fixture.lender);
    lender.frames = meddler.lender->frames;
    lender.frame_count = meddler.lender->frame_count;
    lender.salt = meddler.lender->salt;
    lender.pages = meddler.lender->pages;
    must(windows_attach(fixture.windows, &lender), "windows_attach");
    must(window_discard(window, 0, 2), "window_discard");
    look_often(&fixture, 8);
    check(counts_of(&fixture).lent == PAGES - 3 && part_of(window, 0).counts.past == 0,
          "all others are lent anew, and none is of the past");
    check(at[3 * PAGE + 7] == 'w' && at[4 * PAGE] == 1, "what was written meanwhile is there");
    meddler.page = NULL;
    fixture_end(&fixture, window);
    munmap(at, PAGES * PAGE);
}

/* Where no mapping is to spare a page is lent that needs none more. */
static void crowded(void) {
    enum { MOST = 8 };
    const struct windows_config config = {.pins = WINDOWS_PINS_NEVER, .mappings_most = MOST};
    FIXTURE(&config, PAGES, PAGES);
    for (size_t i = 0; i < PAGES; i++) memset(at + i * PAGE, i % 2 == 0 ? 1 : (int)i + 2, PAGE);
    look_often(&fixture, 32);
    struct windows_counts counts = counts_of(&fixture);
    check(counts.lent == 4 && counts.pause == WINDOWS_CROWDED && counts.mappings <= MOST,
          "some pages are lent, until mappings are short");
    memset(at, 1, PAGE);
    look_often(&fixture, 32);
    check(counts_of(&fixture).lent == 4 && counts_of(&fixture).lends == 5,
          "one that was written is lent again in its own mapping");
    must(window_free(window, WINDOW_TAKE_HOME), "window_free");
    fixture_free(&fixture);
    munmap(at, PAGES * PAGE);
}

/*
 * Pages in a row show one frame, and then get contents that nobody else has: each is a mapping by itself. Some looks later they are one together,
 * unless devices may have pinned them.
 */
static void left_over(const struct windows_config *config) {
    const bool may_pin = config->pins != WINDOWS_PINS_NEVER;
    bool are_right = true;
    FIXTURE(config, PAGES, PAGES);
    fill(at, PAGES, 1);
    check(look_until(&fixture, PAGES) == PAGES, "all pages are lent");
    for (size_t i = 0; i < HALF; i++) memset(at + i * PAGE, (int)i + 2, PAGE);
    check(mappings_in(at, HALF) == HALF, "copies over a frame are as many mappings as before");
    look_often(&fixture, 40);
    /* (a few that were asked about later than those beside them stay as they are) */
    const size_t mappings = mappings_in(at, HALF);
    check(may_pin ? mappings == HALF : mappings <= HALF / 4, "copies in a row are few mappings, if they may have other memory");
    for (size_t i = 0; i < PAGES; i++) are_right = are_right && are_bytes(at + i * PAGE, i < HALF ? (int)i + 2 : 1);
    struct windows_counts counts = counts_of(&fixture);
    check(are_right && counts.lent == HALF && counts.lends == PAGES, "all bytes are as they were written");
    memset(at, 1, HALF * PAGE);
    check(may_pin || look_until(&fixture, PAGES) == PAGES, "what others have again is lent again");
    fixture_end(&fixture, window);
    munmap(at, PAGES * PAGE);
}

/* After the end of lending nothing is lent, and what was lent goes on until it is taken home. No frame is mapped beside that: mlockall would
 * copy each. */
static void over(void) {
    FIXTURE(&never_pinned, PAGES, PAGES);
    fill(at, PAGES, 1);
    check(look_until(&fixture, PAGES) == PAGES, "all pages are lent");
    uint8_t *frames = fixture.windows->frames_at, resident;
    check(mincore(frames, PAGE, &resident) == 0, "the frames are mapped");
    windows_end(fixture.windows);
    check(mincore(frames, PAGE, &resident) == -1 && errno == ENOMEM, "after the end they aren't");
    memset(at, 1, HALF * PAGE);
    look_often(&fixture, 12);
    struct windows_counts counts = counts_of(&fixture);
    check(counts.lent == PAGES - HALF && counts.lends == PAGES && are_bytes(at + HALF * PAGE, 1), "nothing is lent again");
    must(window_free(window, WINDOW_TAKE_HOME), "window_free");
    must(look(fixture.windows), "windows_look");
    windows_detach(fixture.windows);
    must(windows_attach(fixture.windows, lender_interface(fixture.lender)), "windows_attach");
    check(fixture.windows->frames_at == NULL, "nor are those of a lender that comes then");
    fixture_free(&fixture);
    munmap(at, PAGES * PAGE);
}

/* A lender while whose calls pages of the window are given up: one that was asked about, and two that have a loan. Of one nothing is said. */
struct giver {
    const struct window_lender *lender;
    struct window *window;
    bool has_asked, has_lent;
};
enum { GIVEN_UP_ASKED = 3, GIVEN_UP_LENT = 5, GIVEN_UP_UNSAID = 6 };
static bool is_among(const uint32_t *pages, size_t count, uint32_t page) {
    for (size_t i = 0; i < count; i++)
        if (pages[i] == page) return true;
    return false;
}
static int giver_ask(void *opaque, const uint32_t *pages, const uint64_t *fingerprints, const bool *passing, size_t count,
                     unsigned char *seen) {
    struct giver *giver = opaque;
    int cause = giver->lender->ask(giver->lender->opaque, pages, fingerprints, passing, count, seen);
    if (giver->has_asked || !is_among(pages, count, GIVEN_UP_ASKED)) return cause;
    must(window_discard(giver->window, GIVEN_UP_ASKED, 1), "window_discard");
    giver->has_asked = true;
    return cause;
}
static int giver_lend(void *opaque, const uint32_t *pages, size_t count, struct window_loan *loans) {
    struct giver *giver = opaque;
    int cause = giver->lender->lend(giver->lender->opaque, pages, count, loans);
    if (giver->has_lent || !is_among(pages, count, GIVEN_UP_LENT)) return cause;
    must(window_discard(giver->window, GIVEN_UP_LENT, 1), "window_discard");
    check(madvise(giver->window->at + GIVEN_UP_UNSAID * PAGE, PAGE, MADV_DONTNEED) == 0, "madvise");
    giver->has_lent = true;
    return cause;
}
static int giver_release(void *opaque, const uint64_t *slots, size_t count) {
    const struct giver *giver = opaque;
    return giver->lender->release(giver->lender->opaque, slots, count);
}

/* What is given up between two steps of a lend is missing, and no later step puts a page there. */
static void given_up_meanwhile(void) {
    FIXTURE(&never_pinned, PAGES, PAGES);
    struct giver giver = {.lender = lender_interface(fixture.lender), .window = window};
    struct window_lender lender = *giver.lender;
    lender.opaque = &giver;
    lender.ask = giver_ask;
    lender.lend = giver_lend;
    lender.release = giver_release;
    windows_detach(fixture.windows);
    must(windows_attach(fixture.windows, &lender), "windows_attach");
    fill(at, PAGES, 1);
    check(look_until(&fixture, PAGES - 3) == PAGES - 3, "all others are lent");
    check(giver.has_asked && giver.has_lent, "pages were given up meanwhile");
    check(is_missing(at + GIVEN_UP_ASKED * PAGE) && is_missing(at + GIVEN_UP_LENT * PAGE), "what was given up is missing");
    check(is_missing(at + GIVEN_UP_UNSAID * PAGE), "what was given up without a word is missing");
    fixture_end(&fixture, window);
    munmap(at, PAGES * PAGE);
}

/* Whether each page has memory of its own, so that none shows a frame. */
static bool are_own(const struct fixture *fixture, const uint8_t *at) {
    bool own[PAGES], are = pagemap_find_copies(&fixture->windows->pagemap, at, PAGES, own) == 0;
    for (size_t i = 0; i < PAGES; i++) are = are && own[i];
    return are;
}

/* The caller watches a window by a userfaultfd of its own: for writes, or for missing pages, before which all is taken home. */
static void begin_watch(struct fixture *fixture, struct window *window, const struct faults *faults, bool of_writes) {
    check(windows_watch(fixture->windows) == 0, "windows_watch");
    if (!of_writes) must(window_home(window, 0, PAGES, false), "window_home");
    check(faults_watch(faults, window->at, PAGES, of_writes ? FAULTS_OF_WRITES : FAULTS_OF_MISSING) == 0, "the caller's watch");
    windows_watch_made(fixture->windows);
    if (of_writes) must(window_home(window, 0, PAGES, true), "window_home in place");
}

/* Meanwhile nothing is looked at or lent, and what is given up is missing. Afterwards all is lent again. */
static void watched(bool of_writes) {
    struct fixture fixture = fixture_make(&never_pinned, PAGES);
    struct faults faults;
    uint8_t *at = memory(PAGES);
    struct window *window = window_over(&fixture, at, PAGES);
    check(faults_open(&faults, 0, true) == 0, "a userfaultfd of the caller's");
    fill(at, PAGES, 1);
    check(look_until(&fixture, PAGES) == PAGES, "all pages are lent");
    begin_watch(&fixture, window, &faults, of_writes);
    check(are_own(&fixture, at), "no page shows a frame");
    if (!of_writes) must(window_discard(window, 3, 1), "window_discard");
    check(of_writes || is_missing(at + 3 * PAGE), "what is given up is missing");
    memset(at + 5 * PAGE, 9, PAGE);
    look_often(&fixture, 8);
    struct windows_counts counts = counts_of(&fixture);
    check(counts.lent == 0 && counts.pause == WINDOWS_WATCHED && slots_of(&fixture) == 0, "nothing is lent meanwhile");
    check(of_writes || is_missing(at + 3 * PAGE), "and no look has touched it");
    check(faults_end_watch(&faults, at, PAGES) == 0, "the watch's end");
    for (int i = 0; i < 400 && counts_of(&fixture).lent < PAGES - 2; i++) look(fixture.windows), usleep(5000);
    check(counts_of(&fixture).lent == PAGES - (of_writes ? 1 : 2), "then all is lent again");
    check(are_bytes(at, 1) && are_bytes(at + 3 * PAGE, of_writes ? 1 : 0) && are_bytes(at + 5 * PAGE, 9), "with its content");
    close(faults.fd);
    fixture_end(&fixture, window);
    munmap(at, PAGES * PAGE);
}

int main(void) {
    stays(WINDOW_TAKE_HOME);
    stays(WINDOW_DROP);
    holes();
    device_reads();
    many_stay();
    pins_are_found();
    transfers();
    many_transfers();
    uncounted_transfers();
    mappings();
    several_mappings();
    lent_anew();
    crowded();
    left_over(&never_pinned);
    left_over(&maybe_pinned);
    over();
    given_up_meanwhile();
    watched(true);
    watched(false);
    puts(check_count() == 0 ? "leaves: ok" : "leaves: WRONG");
    return check_count() == 0 ? 0 : 1;
}
